//! The words of a closed space read back, and bytes and pages that are no log's and no tree's.

use bukhloem::{Fault, LOG_FORM, Map, PAGE_WORDS, Rule, Space, Status, Words, check_tree, replay};

// The words of a closed space of 16 pages of which nothing was written.
fn closed() -> Words {
    let space = Space::open(16, 8196, 1).expect("a space");
    space.into_words().unwrap_or_else(|_| panic!("nobody else has it"))
}

// The file of a log of a space with so many pages.
fn file(form: u64, pages: u64, log: &[u64]) -> Vec<u8> {
    [form, pages].iter().chain(log).flat_map(|word| word.to_be_bytes()).collect()
}

// Session 1 inserted the key 10 with 100 (examples/insert.log).
const INSERT: [u64; 23] = [
    0x1_0001_0009, 1, 0x3130_0000_0000_0000, 2, 100, 0xa2, 1, 0xa5, 1, 0xa7, 0x218, 0xb2, 0x114, 0xb3, 0x200, 0xb4, 19, 0xb5,
    0x3130_0000_0000_0000, 0xb6, 2, 0xb7, 100,
];

#[test]
fn pages_are_a_tree() {
    let mut pages = closed().pages;
    assert_eq!(pages.len(), 16 * PAGE_WORDS);
    assert_eq!(check_tree(&pages), Ok(true));
    assert_eq!(check_tree(&pages[1..]), Err(Status::BAD_PAGES));
    assert_eq!(check_tree(&[]), Err(Status::BAD_PAGES));
    pages[0] ^= 4;
    assert_eq!(check_tree(&pages), Ok(false));
}

#[test]
fn an_empty_log() {
    let none = Map { pages: 16, entries: 0, pairs: Vec::new() };
    assert_eq!(replay(&closed().log_file()), Ok(none));
}

#[test]
fn one_insert() {
    let one = Map { pages: 16, entries: 1, pairs: vec![(b"10".to_vec(), 100)] };
    assert_eq!(replay(&file(LOG_FORM, 16, &INSERT)), Ok(one));
    let spoiled = |at: usize, word| {
        let mut words = INSERT;
        words[at] = word;
        replay(&file(LOG_FORM, 16, &words)).err()
    };
    assert_eq!(spoiled(0, 9), Some(Fault::Head { place: 0, word: 9 }));
    assert_eq!(spoiled(7, 0xa2), Some(Fault::Write { place: 0, word: 0xa2 }));
    assert_eq!(spoiled(7, 2560), Some(Fault::Outside { place: 0, word: 2560 }));
    assert_eq!(spoiled(1, 2), Some(Fault::Unlawful { place: 0, rule: Rule::Number }));
    assert_eq!(spoiled(4, 101), Some(Fault::Unlawful { place: 0, rule: Rule::Tree }));
}

#[test]
fn bad_files() {
    assert_eq!(replay(&[0; 15]), Err(Fault::OddLength { bytes: 15 }));
    assert_eq!(replay(&[]), Err(Fault::Short { place: 0 }));
    assert_eq!(replay(&file(LOG_FORM, 15, &[])), Err(Fault::File { at: 1, word: 15 }));
    assert_eq!(replay(&file(LOG_FORM - 1, 16, &[])), Err(Fault::File { at: 0, word: LOG_FORM - 1 }));
    assert_eq!(replay(&file(LOG_FORM, 16, &[0])), Err(Fault::Short { place: 0 }));
}
