//! The library's exports, behind safe functions over a handle that is borrowed alone.

use std::ffi::c_void;

/// A handle, as `ib_space` and the library's part of `ib_session` have it.
#[repr(C)]
pub(crate) struct Slot {
    pub(crate) live: u32,
    pub(crate) at: *mut c_void,
}

// That another thread may take a session over is proved in the library. Of a space it is not: what it points to are blocks of
// `malloc` with plain words, and the mutex around it orders its calls.
unsafe impl Send for Slot {}

#[repr(C)]
pub(crate) struct Tried {
    status: u32,
    expected: i32,
    found: i32,
}

#[repr(C)]
pub(crate) struct Released {
    pub(crate) status: u32,
    pub(crate) raised: u32,
    pub(crate) generation: u64,
}

#[repr(C)]
struct Generation {
    status: u32,
    generation: u64,
}

#[repr(C)]
pub(crate) struct Looked {
    pub(crate) status: u32,
    pub(crate) word: i32,
}

#[repr(C)]
pub(crate) struct HeldGrants {
    pub(crate) status: u32,
    pub(crate) grants: u64,
}

#[repr(C)]
pub(crate) struct Counted {
    pub(crate) status: u32,
    pub(crate) s: u64,
    pub(crate) sx: u64,
    pub(crate) x: u64,
}

#[repr(C)]
pub(crate) struct InPhase {
    pub(crate) status: u32,
    pub(crate) phase: u32,
    pub(crate) latch: u32,
}

#[repr(C)]
pub(crate) struct Copied {
    pub(crate) status: u32,
    pub(crate) used: u32,
}

#[repr(C)]
pub(crate) struct Answered {
    pub(crate) status: u32,
    pub(crate) reply: u32,
    pub(crate) value: u64,
    pub(crate) place: u32,
    pub(crate) latch: u32,
    pub(crate) expected: i32,
    pub(crate) found: i32,
    pub(crate) used: u32,
    pub(crate) cap: u32,
    pub(crate) free: u32,
    pub(crate) need: u32,
}

#[repr(C)]
pub(crate) struct Scanned {
    pub(crate) status: u32,
    pub(crate) chunks: u32,
    pub(crate) pairs: u32,
    pub(crate) place: u32,
    pub(crate) next_first: u64,
    pub(crate) next_second: u64,
    pub(crate) latch: u32,
    pub(crate) expected: i32,
    pub(crate) found: i32,
}

#[repr(C)]
pub(crate) struct Replayed {
    pub(crate) status: u32,
    pub(crate) pages: u32,
    pub(crate) entries: u64,
    pub(crate) pairs: u64,
    pub(crate) fault: u32,
    pub(crate) place: u32,
    pub(crate) word: u64,
}

unsafe extern "C" {
    fn ib_c_open(space: &mut Slot, pages: u32, log_words: u32, sessions: u32) -> u32;
    fn ib_c_connect(space: &mut Slot, session: &mut Slot) -> u32;
    fn ib_c_disconnect(space: &mut Slot, session: &mut Slot) -> u32;
    fn ib_c_close(space: &mut Slot) -> u32;
    fn ib_c_free(space: &mut Slot) -> u32;
    fn ib_c_try_s(session: &mut Slot, latch: u32, level: u32) -> Tried;
    fn ib_c_try_sx(session: &mut Slot, latch: u32, level: u32) -> Tried;
    fn ib_c_try_x(session: &mut Slot, latch: u32, level: u32) -> Tried;
    fn ib_c_reserve_x(session: &mut Slot, latch: u32, level: u32) -> Tried;
    fn ib_c_ready_x(session: &mut Slot, latch: u32) -> Tried;
    fn ib_c_unlock_s(session: &mut Slot, latch: u32) -> Released;
    fn ib_c_unlock_sx(session: &mut Slot, latch: u32) -> Released;
    fn ib_c_unlock_x(session: &mut Slot, latch: u32) -> Released;
    fn ib_c_arm(session: &mut Slot, latch: u32, mode: u32, level: u32) -> Generation;
    fn ib_c_recheck(session: &mut Slot, latch: u32) -> Tried;
    fn ib_c_stand_down(session: &mut Slot, latch: u32) -> u32;
    fn ib_c_arm_next(session: &mut Slot, latch: u32) -> Generation;
    fn ib_c_verify(session: &mut Slot, latch: u32) -> Tried;
    fn ib_c_look(session: &mut Slot, latch: u32) -> Generation;
    fn ib_c_word(session: &mut Slot, latch: u32) -> Looked;
    fn ib_c_held(session: &mut Slot) -> HeldGrants;
    fn ib_c_counts(session: &mut Slot, latch: u32) -> Counted;
    fn ib_c_phase(session: &mut Slot) -> InPhase;
    fn ib_c_may_take(session: &mut Slot, latch: u32, mode: u32, level: u32) -> u32;
    fn ib_c_get_nowait(session: &mut Slot, key: *const u8, length: usize) -> Answered;
    fn ib_c_insert_nowait(session: &mut Slot, key: *const u8, length: usize, value: u64) -> Answered;
    fn ib_c_delete_nowait(session: &mut Slot, key: *const u8, length: usize) -> Answered;
    fn ib_c_scan_nowait(
        session: &mut Slot,
        low: *const u8,
        low_length: usize,
        high: *const u8,
        high_length: usize,
        chunks: *mut u64,
        chunk_count: usize,
        pairs: *mut u64,
        pair_count: usize,
    ) -> Scanned;
    fn ib_c_log_words(space: &mut Slot, first: u32, out: *mut u64, count: usize) -> Copied;
    fn ib_c_page_words(space: &mut Slot, page: u32, out: *mut u64, count: usize) -> Copied;
    fn ib_c_replay(bytes: *const u8, length: usize, out: *mut u64, count: usize) -> Replayed;
    fn ib_c_check_tree(words: *const u64, count: usize) -> u32;
}

/// Looks a key up.
pub(crate) fn get_nowait(session: &mut Slot, key: &[u8]) -> Answered {
    unsafe { ib_c_get_nowait(session, key.as_ptr(), key.len()) }
}

/// Puts a pair in.
pub(crate) fn insert_nowait(session: &mut Slot, key: &[u8], value: u64) -> Answered {
    unsafe { ib_c_insert_nowait(session, key.as_ptr(), key.len(), value) }
}

/// Takes a key out.
pub(crate) fn delete_nowait(session: &mut Slot, key: &[u8]) -> Answered {
    unsafe { ib_c_delete_nowait(session, key.as_ptr(), key.len()) }
}

/// Scans from one key to another, with the words of the chunks in front of `chunks`, and those of their pairs in front of `pairs`.
pub(crate) fn scan_nowait(session: &mut Slot, low: &[u8], high: &[u8], chunks: &mut [u64], pairs: &mut [u64]) -> Scanned {
    let (chunk_words, pair_words) = (chunks.as_mut_ptr(), pairs.as_mut_ptr());
    unsafe {
        ib_c_scan_nowait(session, low.as_ptr(), low.len(), high.as_ptr(), high.len(), chunk_words, chunks.len(), pair_words, pairs.len())
    }
}

/// Words of a closed space's log, as many as `out` has room for.
pub(crate) fn log_words(space: &mut Slot, first: u32, out: &mut [u64]) -> Copied {
    unsafe { ib_c_log_words(space, first, out.as_mut_ptr(), out.len()) }
}

/// The words of a page of a closed space, where `out` has the room of a page.
pub(crate) fn page_words(space: &mut Slot, page: u32, out: &mut [u64]) -> Copied {
    unsafe { ib_c_page_words(space, page, out.as_mut_ptr(), out.len()) }
}

/// What the log in a file makes, with its pairs in front of `out`.
pub(crate) fn replay(bytes: &[u8], out: &mut [u64]) -> Replayed {
    unsafe { ib_c_replay(bytes.as_ptr(), bytes.len(), out.as_mut_ptr(), out.len()) }
}

/// Whether the words of all pages are those of a tree.
pub(crate) fn check_tree(words: &[u64]) -> u32 {
    unsafe { ib_c_check_tree(words.as_ptr(), words.len()) }
}

// Each handle comes from this crate alone, is never copied, and is borrowed by one call at a time.
macro_rules! calls {
    ($($name:ident = $export:ident($($arg:ident: $type:ty),*) -> $result:ty, $of:expr;)*) => {
        $(pub(crate) fn $name($($arg: $type),*) -> $result {
            #[allow(clippy::redundant_closure_call)]
            ($of)(unsafe { $export($($arg),*) })
        })*
    };
}

calls! {
    open = ib_c_open(space: &mut Slot, pages: u32, log_words: u32, sessions: u32) -> u32, |s| s;
    connect = ib_c_connect(space: &mut Slot, session: &mut Slot) -> u32, |s| s;
    disconnect = ib_c_disconnect(space: &mut Slot, session: &mut Slot) -> u32, |s| s;
    close = ib_c_close(space: &mut Slot) -> u32, |s| s;
    free = ib_c_free(space: &mut Slot) -> u32, |s| s;
    try_s = ib_c_try_s(session: &mut Slot, latch: u32, level: u32) -> u32, |t: Tried| t.status;
    try_sx = ib_c_try_sx(session: &mut Slot, latch: u32, level: u32) -> u32, |t: Tried| t.status;
    try_x = ib_c_try_x(session: &mut Slot, latch: u32, level: u32) -> u32, |t: Tried| t.status;
    reserve_x = ib_c_reserve_x(session: &mut Slot, latch: u32, level: u32) -> u32, |t: Tried| t.status;
    ready_x = ib_c_ready_x(session: &mut Slot, latch: u32) -> u32, |t: Tried| t.status;
    unlock_s = ib_c_unlock_s(session: &mut Slot, latch: u32) -> Released, |r| r;
    unlock_sx = ib_c_unlock_sx(session: &mut Slot, latch: u32) -> Released, |r| r;
    unlock_x = ib_c_unlock_x(session: &mut Slot, latch: u32) -> Released, |r| r;
    arm = ib_c_arm(session: &mut Slot, latch: u32, mode: u32, level: u32) -> u32, |g: Generation| g.status;
    recheck = ib_c_recheck(session: &mut Slot, latch: u32) -> u32, |t: Tried| t.status;
    stand_down = ib_c_stand_down(session: &mut Slot, latch: u32) -> u32, |s| s;
    arm_next = ib_c_arm_next(session: &mut Slot, latch: u32) -> u32, |g: Generation| g.status;
    verify = ib_c_verify(session: &mut Slot, latch: u32) -> u32, |t: Tried| t.status;
    look = ib_c_look(session: &mut Slot, latch: u32) -> u32, |g: Generation| g.status;
    word = ib_c_word(session: &mut Slot, latch: u32) -> Looked, |l| l;
    held = ib_c_held(session: &mut Slot) -> HeldGrants, |h| h;
    counts = ib_c_counts(session: &mut Slot, latch: u32) -> Counted, |c| c;
    phase = ib_c_phase(session: &mut Slot) -> InPhase, |p| p;
    may_take = ib_c_may_take(session: &mut Slot, latch: u32, mode: u32, level: u32) -> u32, |s| s;
}
