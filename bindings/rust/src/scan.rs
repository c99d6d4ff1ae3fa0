//! Scans that do not wait.

use crate::replay::key_bytes;
use crate::{CallError, Latch, Status, raw};

const CHUNK_WORDS: usize = 6;
const PAIR_WORDS: usize = 3;

/// A chunk of a scan: the pairs that the tree had from `low` to `high`, both with them, at a place of the log.
#[derive(Clone, PartialEq, Eq, Debug)]
pub struct Chunk {
    pub low: Vec<u8>,
    pub high: Vec<u8>,
    pub place: u32,
    pub pairs: Vec<(Vec<u8>, u64)>,
}

/// How a scan ended. To go on, scan from `next` on.
#[derive(Clone, PartialEq, Eq, Debug)]
pub enum ScanEnd {
    /// All was scanned, at the last chunk's place. Where `low` is above `high` there is no chunk, and the place is what the session
    /// had seen.
    All { place: u32 },
    /// There is no room for the chunk that begins at `next`.
    NoRoom { next: Vec<u8> },
    /// The latch was not had on the way to the chunk that begins at `next`: its word refuses it.
    Busy { next: Vec<u8>, latch: Latch, word: i32 },
    /// The latch was not had on the way to the chunk that begins at `next`: the exchange found another word than the look before it.
    Raced { next: Vec<u8>, latch: Latch, expected: i32, found: i32 },
}

/// What a scan found, chunk by chunk in order of keys, and how it ended.
#[derive(Clone, PartialEq, Eq, Debug)]
pub struct Scan {
    pub chunks: Vec<Chunk>,
    pub end: ScanEnd,
}

// So many places of so many words.
fn room(places: usize, words: usize) -> Result<Vec<u64>, CallError> {
    let none = CallError::Refused(Status::OUT_OF_MEMORY);
    let count = places.checked_mul(words).ok_or(none)?;
    let mut room = Vec::new();
    room.try_reserve_exact(count).map_err(|_| none)?;
    room.resize(count, 0);
    Ok(room)
}

// The chunks that stand in front of these words, with their pairs.
fn chunks_of(words: &[u64], pairs: &[u64]) -> Vec<Chunk> {
    let mut rest = pairs.chunks_exact(PAIR_WORDS);
    let chunk = |w: &[u64]| Chunk {
        low: key_bytes(w[0], w[1]),
        high: key_bytes(w[2], w[3]),
        place: w[4] as u32,
        pairs: rest.by_ref().take(w[5] as usize).map(|p| (key_bytes(p[0], p[1]), p[2])).collect(),
    };
    words.chunks_exact(CHUNK_WORDS).map(chunk).collect()
}

/// Scans from one key to another, into room for so many chunks and pairs.
pub(crate) fn try_scan(slot: &mut raw::Slot, low: &[u8], high: &[u8], chunks: usize, pairs: usize) -> Result<Scan, CallError> {
    let (mut words, mut pair_words) = (room(chunks, CHUNK_WORDS)?, room(pairs, PAIR_WORDS)?);
    let told = raw::scan_nowait(slot, low, high, &mut words, &mut pair_words);
    let next = key_bytes(told.next_first, told.next_second);
    let (latch, expected, found) = (Latch(told.latch), told.expected, told.found);
    let end = match Status(told.status) {
        Status::OK => ScanEnd::All { place: told.place },
        Status::NO_ROOM => ScanEnd::NoRoom { next },
        Status::BUSY => ScanEnd::Busy { next, latch, word: found },
        Status::RACED => ScanEnd::Raced { next, latch, expected, found },
        status => return Err(CallError::Refused(status)),
    };
    let chunks = chunks_of(&words[..CHUNK_WORDS * told.chunks as usize], &pair_words[..PAIR_WORDS * told.pairs as usize]);
    Ok(Scan { chunks, end })
}
