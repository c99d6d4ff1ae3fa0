//! Bukhloem for Rust: one tree of records, with its latches and pages, over the static library `libib_c.a`. Every public call is
//! safe: a space and a session are owned values, a session may go to another thread (`Send`), and a space may be shared (`Sync`).
//! Calls that wait are made here, by a mutex and a condition for each of some stripes of latches; the library's never do.
//!
//! ```
//! let space = Space::open(16, 8196, 8)?;
//! let mut session = space.connect()?;
//! session.try_insert(b"seven", 7)?;
//! assert_eq!(session.try_get(b"seven")?.reply, Reply::Found { value: 7 });
//! session.lock(Latch::page(5), Mode::X, Level::TreeNode)?;
//! session.unlock(Latch::page(5), Mode::X)?;
//! ```
#![deny(unsafe_op_in_unsafe_fn)]

mod raw;
mod replay;
mod scan;

pub use replay::{Fault, LOG_FORM, Map, PAGE_WORDS, Rule, Words, check_tree, replay};
pub use scan::{Chunk, Scan, ScanEnd};

use std::fmt;
use std::ptr;
use std::sync::{Arc, Condvar, Mutex, MutexGuard, PoisonError};
use std::time::Duration;

const STRIPES: usize = 64;
const SPINS: u32 = 30;
// A call on the tree wakes nobody: who sleeps on a latch looks again after this time.
const NAP: Duration = Duration::from_millis(1);

/// Why a call did nothing, or what it came to: the numbers of `ib_status` in `bukhloem.h`.
#[derive(Clone, Copy, PartialEq, Eq, Debug)]
pub struct Status(pub u32);

impl Status {
    pub const OK: Status = Status(0);
    pub const BUSY: Status = Status(1);
    pub const RACED: Status = Status(2);
    pub const NEXT: Status = Status(3);
    pub const NOT_READY: Status = Status(4);
    pub const ASLEEP: Status = Status(5);
    pub const NO_HANDLE: Status = Status(16);
    pub const BAD_LATCH: Status = Status(18);
    pub const BAD_MODE: Status = Status(20);
    pub const NOT_ALLOWED: Status = Status(21);
    pub const TOO_MANY_GRANTS: Status = Status(22);
    pub const NOT_HELD: Status = Status(23);
    pub const WRONG_PHASE: Status = Status(24);
    pub const BAD_PAGES: Status = Status(25);
    pub const BAD_LOG: Status = Status(26);
    pub const BAD_SESSIONS: Status = Status(27);
    pub const NO_SESSION_LEFT: Status = Status(28);
    pub const CONNECTED: Status = Status(29);
    pub const OUT_OF_MEMORY: Status = Status(31);
    pub const BAD_KEY: Status = Status(32);
    pub const BAD_RANGE: Status = Status(33);
    pub const FAULTY: Status = Status(34);
    pub const IN_CALL: Status = Status(35);
    pub const NOT_CONNECTED: Status = Status(36);
    pub const NO_ROOM: Status = Status(6);

    fn check(number: u32) -> Result<(), Status> {
        if number == 0 { Ok(()) } else { Err(Status(number)) }
    }
}

impl fmt::Display for Status {
    fn fmt(&self, f: &mut fmt::Formatter<'_>) -> fmt::Result {
        write!(f, "status {}", self.0)
    }
}

impl std::error::Error for Status {}

/// A latch of a space.
#[derive(Clone, Copy, PartialEq, Eq, Debug)]
pub struct Latch(pub u32);

impl Latch {
    pub const LOG: Latch = Latch(0);
    pub const INDEX: Latch = Latch(1);

    /// The latch of a page. Of a page that no space has, one that no space has.
    pub fn page(page: u32) -> Latch {
        Latch(page.saturating_add(2))
    }

    fn stripe(self) -> usize {
        self.0 as usize % STRIPES
    }
}

#[derive(Clone, Copy, PartialEq, Eq, Debug)]
pub enum Mode {
    S = 0,
    Sx = 1,
    X = 2,
}

/// The level at which a latch is taken, below those that the session holds.
#[derive(Clone, Copy, PartialEq, Eq, Debug)]
pub enum Level {
    Log = 1,
    PageNew = 2,
    Space = 3,
    TreeNode = 4,
    IndexTree = 5,
}

struct Shared {
    space: Mutex<raw::Slot>,
    parking: Vec<(Mutex<()>, Condvar)>,
}

impl Shared {
    fn space(&self) -> MutexGuard<'_, raw::Slot> {
        self.space.lock().unwrap_or_else(PoisonError::into_inner)
    }
}

// The last owner closes the space. Sessions own it too, so none is connected then but one that was dropped with latches.
impl Drop for Shared {
    fn drop(&mut self) {
        let space = self.space.get_mut().unwrap_or_else(PoisonError::into_inner);
        if raw::close(space) == Status::OK.0 {
            raw::free(space);
        }
    }
}

/// A space of latches and pages, shared by its sessions.
#[derive(Clone)]
pub struct Space(Arc<Shared>);

impl Space {
    /// A space of 16 to 4,096 pages, a log of 8,196 to 16,777,216 words, and 1 to 1,024 sessions.
    pub fn open(pages: u32, log_words: u32, sessions: u32) -> Result<Space, Status> {
        let mut slot = raw::Slot { live: 0, at: ptr::null_mut() };
        Status::check(raw::open(&mut slot, pages, log_words, sessions))?;
        let parking = (0..STRIPES).map(|_| Default::default()).collect();
        Ok(Space(Arc::new(Shared { space: Mutex::new(slot), parking })))
    }

    /// A session that nobody has.
    pub fn connect(&self) -> Result<Session, Status> {
        let mut slot = raw::Slot { live: 0, at: ptr::null_mut() };
        Status::check(raw::connect(&mut self.0.space(), &mut slot))?;
        Ok(Session { slot, shared: Arc::clone(&self.0) })
    }
}

impl Space {
    /// Closes the space, and gives the words of its log. Where somebody else has the space still, a session say, it comes
    /// back as it was.
    pub fn into_log(self) -> Result<Vec<u64>, Space> {
        self.into_words().map(|words| words.log)
    }

    /// Closes the space, and gives the words of its log and of its pages. Where somebody else has the space still, it comes
    /// back as it was.
    pub fn into_words(self) -> Result<Words, Space> {
        let mut shared = Arc::try_unwrap(self.0).map_err(Space)?;
        let slot = shared.space.get_mut().unwrap_or_else(PoisonError::into_inner);
        if raw::close(slot) != Status::OK.0 {
            // A session that was dropped with latches is connected still.
            return Err(Space(Arc::new(shared)));
        }
        let mut log = vec![0; raw::log_words(slot, 0, &mut []).used as usize];
        let copied = raw::log_words(slot, 0, &mut log);
        debug_assert_eq!(copied.status, Status::OK.0);
        let mut pages = Vec::new();
        let mut page = [0; PAGE_WORDS];
        for number in 0.. {
            if raw::page_words(slot, number, &mut page).status != Status::OK.0 {
                break;
            }
            pages.extend_from_slice(&page);
        }
        raw::free(slot);
        Ok(Words { log, pages })
    }
}

/// How many grants of each mode a session holds on a latch.
#[derive(Clone, Copy, PartialEq, Eq, Debug)]
pub struct Counts {
    pub s: u64,
    pub sx: u64,
    pub x: u64,
}

/// What a lookup, an insert or a delete was answered (`ib_reply` in `bukhloem.h`). Each but `Inserted` and `Deleted` changed
/// nothing.
#[derive(Clone, Copy, PartialEq, Eq, Debug)]
pub enum Reply {
    Found { value: u64 },
    NotFound,
    Inserted,
    /// The key was there.
    Duplicate,
    Deleted { value: u64 },
    /// The key was not there.
    Missing,
    /// The tree would get a ninth level.
    TooHigh,
    /// So many pages are free where more are needed.
    SpaceFull { free: u32, need: u32 },
    /// So many of the log's words are taken.
    LogFull { used: u32, cap: u32 },
}

/// A reply, at a place of the log: how many entries are before it.
#[derive(Clone, Copy, PartialEq, Eq, Debug)]
pub struct Answer {
    pub reply: Reply,
    pub place: u32,
}

/// Why a call on the tree has no answer. Nothing is changed, and nothing held.
#[derive(Clone, Copy, PartialEq, Eq, Debug)]
pub enum CallError {
    /// The latch was not had: its word refuses it.
    Busy { latch: Latch, word: i32 },
    /// The latch was not had: the exchange found another word than the look before it.
    Raced { latch: Latch, expected: i32, found: i32 },
    /// The call is not allowed: BAD_KEY, or NOT_ALLOWED for a session that holds something; or a scan has no memory: OUT_OF_MEMORY.
    Refused(Status),
}

impl fmt::Display for CallError {
    fn fmt(&self, f: &mut fmt::Formatter<'_>) -> fmt::Result {
        match self {
            CallError::Busy { latch, word } => write!(f, "the word {word} of latch {} refuses it", latch.0),
            CallError::Raced { latch, expected, found } => {
                write!(f, "the word of latch {} was {found} where {expected} was expected", latch.0)
            }
            CallError::Refused(status) => status.fmt(f),
        }
    }
}

impl std::error::Error for CallError {}

// What the library told, with its replies and faults as they are here.
fn answer_of(told: raw::Answered) -> Result<Answer, CallError> {
    let raw::Answered { status, reply, value, place, latch, expected, found, used, cap, free, need } = told;
    let reply = match (Status(status), reply) {
        (Status::OK, 1) => Reply::Found { value },
        (Status::OK, 2) => Reply::NotFound,
        (Status::OK, 3) => Reply::Inserted,
        (Status::OK, 4) => Reply::Duplicate,
        (Status::OK, 5) => Reply::Deleted { value },
        (Status::OK, 6) => Reply::Missing,
        (Status::OK, 7) => Reply::TooHigh,
        (Status::OK, 8) => Reply::SpaceFull { free, need },
        (Status::OK, 9) => Reply::LogFull { used, cap },
        (Status::BUSY, _) => return Err(CallError::Busy { latch: Latch(latch), word: found }),
        (Status::RACED, _) => return Err(CallError::Raced { latch: Latch(latch), expected, found }),
        (status, _) => return Err(CallError::Refused(status)),
    };
    Ok(Answer { reply, place })
}

/// A session. It is given back when it is dropped; one that holds latches then stays connected, with them.
pub struct Session {
    slot: raw::Slot,
    shared: Arc<Shared>,
}

impl Drop for Session {
    fn drop(&mut self) {
        raw::disconnect(&mut self.shared.space(), &mut self.slot);
    }
}

impl Session {
    /// Takes a latch without waiting: BUSY, RACED, or why it is not allowed. X as `reserve` beside one's own SX.
    pub fn try_take(&mut self, latch: Latch, mode: Mode, level: Level) -> Result<(), Status> {
        Status::check(match mode {
            Mode::S => raw::try_s(&mut self.slot, latch.0, level as u32),
            Mode::Sx => raw::try_sx(&mut self.slot, latch.0, level as u32),
            Mode::X => raw::try_x(&mut self.slot, latch.0, level as u32),
        })
    }

    /// Takes X, or reserves it while readers remain (NEXT): `ready` tells when it is owned.
    pub fn reserve(&mut self, latch: Latch, level: Level) -> Result<(), Status> {
        Status::check(raw::reserve_x(&mut self.slot, latch.0, level as u32))
    }

    /// Whether the next writer owns X by now, or NOT_READY.
    pub fn ready(&mut self, latch: Latch) -> Result<(), Status> {
        Status::check(raw::ready_x(&mut self.slot, latch.0))
    }

    /// The lock word of a latch, by one look of a session in the middle of nothing.
    pub fn word(&mut self, latch: Latch) -> Result<i32, Status> {
        let looked = raw::word(&mut self.slot, latch.0);
        Status::check(looked.status).map(|()| looked.word)
    }

    /// How many grants it holds now, on all latches.
    pub fn held(&mut self) -> Result<u64, Status> {
        let held = raw::held(&mut self.slot);
        Status::check(held.status).map(|()| held.grants)
    }

    /// How many grants of each mode it holds on a latch.
    pub fn counts(&mut self, latch: Latch) -> Result<Counts, Status> {
        let raw::Counted { status, s, sx, x } = raw::counts(&mut self.slot, latch.0);
        Status::check(status).map(|()| Counts { s, sx, x })
    }

    /// The latch whose next writer it is, or that it waits for.
    pub fn awaits(&mut self) -> Result<Option<Latch>, Status> {
        let now = raw::phase(&mut self.slot);
        Status::check(now.status).map(|()| (now.phase != 0).then_some(Latch(now.latch)))
    }

    /// Whether a grant may be wished for, or why not: what `try_take`, and for X `reserve`, would be refused for before
    /// any look at the latch.
    pub fn may_take(&mut self, latch: Latch, mode: Mode, level: Level) -> Result<(), Status> {
        Status::check(raw::may_take(&mut self.slot, latch.0, mode as u32, level as u32))
    }

    /// Gives one grant back, and wakes who waits for it.
    pub fn unlock(&mut self, latch: Latch, mode: Mode) -> Result<(), Status> {
        let released = match mode {
            Mode::S => raw::unlock_s(&mut self.slot, latch.0),
            Mode::Sx => raw::unlock_sx(&mut self.slot, latch.0),
            Mode::X => raw::unlock_x(&mut self.slot, latch.0),
        };
        if released.status == 0 && released.raised != 0 {
            let (mutex, wake) = &self.shared.parking[latch.stripe()];
            let _held = mutex.lock().unwrap_or_else(PoisonError::into_inner);
            wake.notify_all();
        }
        Status::check(released.status)
    }

    /// Looks a key of 15 bytes at most up, without waiting: `Found` or `NotFound`. The session holds nothing before and after.
    pub fn try_get(&mut self, key: &[u8]) -> Result<Answer, CallError> {
        answer_of(raw::get_nowait(&mut self.slot, key))
    }

    /// Puts a pair in, without waiting: `Inserted`, `Duplicate`, `TooHigh`, `SpaceFull` or `LogFull`.
    pub fn try_insert(&mut self, key: &[u8], value: u64) -> Result<Answer, CallError> {
        answer_of(raw::insert_nowait(&mut self.slot, key, value))
    }

    /// Takes a key out, without waiting: `Deleted`, `Missing` or `LogFull`.
    pub fn try_delete(&mut self, key: &[u8]) -> Result<Answer, CallError> {
        answer_of(raw::delete_nowait(&mut self.slot, key))
    }

    /// Scans from `low` to `high`, both with them, without waiting, into room for so many chunks and pairs: what is there, chunk
    /// by chunk, each as the tree has it at the chunk's own place. A chunk has 35 pairs at most: with room for one chunk and 35
    /// pairs a scan gets ahead. Where it ended before its end, it goes on from `next` on.
    pub fn try_scan(&mut self, low: &[u8], high: &[u8], chunks: usize, pairs: usize) -> Result<Scan, CallError> {
        scan::try_scan(&mut self.slot, low, high, chunks, pairs)
    }

    /// Takes a latch, and waits until it is granted.
    pub fn lock(&mut self, latch: Latch, mode: Mode, level: Level) -> Result<(), Status> {
        for spins in 0u32.. {
            let tried = match mode {
                Mode::X => self.reserve(latch, level),
                _ => self.try_take(latch, mode, level),
            };
            let tried = match tried {
                Err(Status::BUSY) if spins >= SPINS => self.wait_round(latch, mode, level),
                other => other,
            };
            match tried {
                Err(Status::NEXT) => return self.await_x(latch),
                Err(Status::BUSY | Status::RACED) => std::thread::yield_now(),
                done => return done,
            }
        }
        Err(Status::BUSY)
    }

    // Records the wish, tries once more, and sleeps. RACED to begin anew.
    fn wait_round(&mut self, latch: Latch, mode: Mode, level: Level) -> Result<(), Status> {
        Status::check(raw::arm(&mut self.slot, latch.0, mode as u32, level as u32))?;
        match Status::check(raw::recheck(&mut self.slot, latch.0)) {
            Err(Status::RACED) => {
                Status::check(raw::stand_down(&mut self.slot, latch.0))?;
                Err(Status::RACED)
            }
            Err(Status::BUSY) => {
                self.park(latch)?;
                Err(Status::RACED)
            }
            done => done,
        }
    }

    // A next writer waits until it owns X.
    fn await_x(&mut self, latch: Latch) -> Result<(), Status> {
        loop {
            Status::check(raw::arm_next(&mut self.slot, latch.0))?;
            match Status::check(raw::verify(&mut self.slot, latch.0)) {
                Err(Status::NOT_READY) => self.park(latch)?,
                done => return done,
            }
            match self.ready(latch) {
                Err(Status::NOT_READY) => {}
                done => return done,
            }
        }
    }

    // Sleeps while the generation stands that the session recorded. The index's calls raise generations and wake nobody, so
    // it looks again after a millisecond.
    fn park(&mut self, latch: Latch) -> Result<(), Status> {
        let (mutex, wake) = &self.shared.parking[latch.stripe()];
        let mut held = mutex.lock().unwrap_or_else(PoisonError::into_inner);
        loop {
            match Status::check(raw::look(&mut self.slot, latch.0)) {
                Err(Status::ASLEEP) => held = wake.wait_timeout(held, NAP).unwrap_or_else(PoisonError::into_inner).0,
                done => return done,
            }
        }
    }
}
