//! What the words of a closed space say: the file of its log replayed, and its pages tested as a tree.

use crate::{Status, raw};
use std::fmt;

/// The words of a page.
pub const PAGE_WORDS: usize = 160;

/// What the file of a log begins with: the text `IBLOG572`.
pub const LOG_FORM: u64 = 0x4942_4c4f_4735_3732;

/// The words of a closed space: of its log, and of its pages, one page behind another.
#[derive(Clone, PartialEq, Eq, Debug)]
pub struct Words {
    pub log: Vec<u64>,
    pub pages: Vec<u64>,
}

impl Words {
    /// The file of the log: its form, how many pages the space has, and its words, each from the highest byte down.
    pub fn log_file(&self) -> Vec<u8> {
        let front = [LOG_FORM, (self.pages.len() / PAGE_WORDS) as u64];
        front.iter().chain(&self.log).flat_map(|word| word.to_be_bytes()).collect()
    }
}

/// What a lawful log makes: its pages, how many entries it has, and the pairs of its map in order of keys.
#[derive(Clone, PartialEq, Eq, Debug)]
pub struct Map {
    pub pages: u32,
    pub entries: u64,
    pub pairs: Vec<(Vec<u8>, u64)>,
}

/// The rule that an entry breaks.
#[derive(Clone, Copy, PartialEq, Eq, Debug)]
pub enum Rule {
    /// Its number is not one more than those of the session before it.
    Number,
    /// The map does not make its change: the key is there, or is not.
    Change,
    /// Its pages are no tree with what the map has.
    Tree,
}

/// Why bytes are not replayed: their first fault, or want of memory. `place` is the log word at which the entry begins.
#[derive(Clone, Copy, PartialEq, Eq, Debug)]
pub enum Fault {
    /// An entry, or the file, has fewer words than it needs.
    Short { place: u32 },
    /// The word is not one of an entry's head.
    Head { place: u32, word: u64 },
    /// A write whose place, `word`, is not above the one before it.
    Write { place: u32, word: u64 },
    /// A write whose place, `word`, is on no page.
    Outside { place: u32, word: u64 },
    /// No whole number of words.
    OddLength { bytes: u64 },
    /// Number `at` of the file is not one that a file begins with.
    File { at: u32, word: u64 },
    /// An entry that may not stand where it stands.
    Unlawful { place: u32, rule: Rule },
    /// 2^35 bytes or more.
    TooLong,
    OutOfMemory,
}

impl fmt::Display for Fault {
    fn fmt(&self, f: &mut fmt::Formatter<'_>) -> fmt::Result {
        match self {
            Fault::Short { place } => write!(f, "short at {place}"),
            Fault::Head { place, word } => write!(f, "head at {place} word {word}"),
            Fault::Write { place, word } => write!(f, "write at {place} word {word}"),
            Fault::Outside { place, word } => write!(f, "outside at {place} word {word}"),
            Fault::OddLength { bytes } => write!(f, "odd length {bytes}"),
            Fault::File { at, word } => write!(f, "file at {at} word {word}"),
            Fault::Unlawful { place, rule } => write!(f, "unlawful at {place}: {rule:?}"),
            Fault::TooLong => write!(f, "too long"),
            Fault::OutOfMemory => write!(f, "out of memory"),
        }
    }
}

impl std::error::Error for Fault {}

// Of a log that is not lawful, or of bytes that are too many. Want of memory is all else that is told.
fn fault_of(told: &raw::Replayed) -> Fault {
    let (place, word) = (told.place, told.word);
    match (Status(told.status), told.fault, word) {
        (Status::BAD_LOG, ..) => Fault::TooLong,
        (Status::FAULTY, 1, _) => Fault::Short { place },
        (Status::FAULTY, 2, _) => Fault::Head { place, word },
        (Status::FAULTY, 3, _) => Fault::Write { place, word },
        (Status::FAULTY, 4, _) => Fault::Outside { place, word },
        (Status::FAULTY, 5, _) => Fault::OddLength { bytes: word },
        (Status::FAULTY, 6, _) => Fault::File { at: place, word },
        (Status::FAULTY, 7, 1) => Fault::Unlawful { place, rule: Rule::Number },
        (Status::FAULTY, 7, 2) => Fault::Unlawful { place, rule: Rule::Change },
        (Status::FAULTY, 7, 3) => Fault::Unlawful { place, rule: Rule::Tree },
        _ => Fault::OutOfMemory,
    }
}

/// The bytes of a key, from its two words.
pub(crate) fn key_bytes(first: u64, second: u64) -> Vec<u8> {
    let [first, second] = [first.to_be_bytes(), second.to_be_bytes()];
    let len = usize::from(second[7]);
    first.into_iter().chain(second).take(len).collect()
}

/// Replays the file of a log on the pages of a new space and on the empty map.
pub fn replay(file: &[u8]) -> Result<Map, Fault> {
    // An entry has seven words at least, and gives one pair at most, which has three.
    let mut out = vec![0; file.len() / 16];
    let mut told = raw::replay(file, &mut out);
    if told.status == Status::BAD_RANGE.0 {
        out.resize(3 * told.pairs as usize, 0);
        told = raw::replay(file, &mut out);
    }
    if told.status != Status::OK.0 {
        return Err(fault_of(&told));
    }
    let words = &out[..3 * told.pairs as usize];
    let pairs = words.chunks_exact(3).map(|w| (key_bytes(w[0], w[1]), w[2])).collect();
    Ok(Map { pages: told.pages, entries: told.entries, pairs })
}

/// Whether the words of all pages, one page behind another, are those of a lawful tree whose root is page 1. BAD_PAGES where
/// they are not 16 to 4,096 pages, OUT_OF_MEMORY.
pub fn check_tree(words: &[u64]) -> Result<bool, Status> {
    match Status(raw::check_tree(words)) {
        Status::OK => Ok(true),
        Status::FAULTY => Ok(false),
        status => Err(status),
    }
}
