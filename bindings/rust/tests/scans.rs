//! Scans that do not wait: each end that they come to, and what they leave.

use bukhloem::{CallError, Chunk, Latch, Level, Mode, Scan, ScanEnd, Session, Space, Status};

const MOST: [u8; 15] = [255; 15];

fn key(n: u32) -> Vec<u8> {
    format!("k{n:02}").into_bytes()
}

// A space with 40 keys, and two sessions.
fn forty() -> (Session, Session) {
    let space = Space::open(16, 100_000, 2).expect("a space");
    let (mut a, b) = (space.connect().expect("a session"), space.connect().expect("a session"));
    for n in 0..40 {
        a.try_insert(&key(n), u64::from(n)).expect("inserted");
    }
    (a, b)
}

fn pairs_of(chunks: &[Chunk]) -> Vec<(Vec<u8>, u64)> {
    chunks.iter().flat_map(|chunk| chunk.pairs.clone()).collect()
}

fn all_pairs() -> Vec<(Vec<u8>, u64)> {
    (0..40).map(|n| (key(n), u64::from(n))).collect()
}

// The key behind another one.
fn behind(key: &[u8]) -> Vec<u8> {
    let mut next = key.to_vec();
    if next.len() < 15 {
        next.push(0);
        return next;
    }
    while next.pop_if(|last| *last == 255).is_some() {}
    *next.last_mut().expect("a key above") += 1;
    next
}

#[test]
fn an_empty_tree() -> Result<(), Box<dyn std::error::Error>> {
    let space = Space::open(16, 8196, 1)?;
    let mut session = space.connect()?;
    let none = Chunk { low: b"a".to_vec(), high: b"b".to_vec(), place: 0, pairs: Vec::new() };
    assert_eq!(session.try_scan(b"a", b"b", 1, 0)?, Scan { chunks: vec![none], end: ScanEnd::All { place: 0 } });
    assert_eq!(session.try_scan(b"b", b"a", 1, 0)?, Scan { chunks: Vec::new(), end: ScanEnd::All { place: 0 } });
    assert_eq!(session.try_scan(b"a", b"b", 0, 0)?, Scan { chunks: Vec::new(), end: ScanEnd::NoRoom { next: b"a".to_vec() } });
    Ok(())
}

#[test]
fn refused_scans() -> Result<(), Box<dyn std::error::Error>> {
    let (mut a, _) = forty();
    let refused = |status| Err(CallError::Refused(status));
    assert_eq!(a.try_scan(&[7; 16], b"b", 1, 1), refused(Status::BAD_KEY));
    assert_eq!(a.try_scan(b"a", &[7; 16], 1, 1), refused(Status::BAD_KEY));
    assert_eq!(a.try_scan(b"a", b"b", usize::MAX, 1), refused(Status::OUT_OF_MEMORY));
    a.try_take(Latch::page(5), Mode::S, Level::TreeNode)?;
    assert_eq!(a.try_scan(b"a", b"b", 1, 1), refused(Status::NOT_ALLOWED));
    a.unlock(Latch::page(5), Mode::S)?;
    assert!(a.try_scan(b"a", b"b", 1, 1).is_ok());
    Ok(())
}

#[test]
fn all_at_once() -> Result<(), CallError> {
    let (mut a, _) = forty();
    let Scan { chunks, end } = a.try_scan(b"", &MOST, 16, 64)?;
    assert_eq!(end, ScanEnd::All { place: 40 });
    assert!(chunks.len() > 1);
    assert_eq!(pairs_of(&chunks), all_pairs());
    assert_eq!(chunks.first().map(|chunk| chunk.low.clone()), Some(Vec::new()));
    assert_eq!(chunks.last().map(|chunk| chunk.high.clone()), Some(MOST.to_vec()));
    assert!(chunks.iter().all(|chunk| chunk.place == 40));
    assert!(chunks.windows(2).all(|two| two[1].low == behind(&two[0].high)));
    let part = a.try_scan(b"k05", b"k07", 2, 3)?;
    assert_eq!(pairs_of(&part.chunks), all_pairs()[5..8]);
    Ok(())
}

#[test]
fn chunk_by_chunk() -> Result<(), CallError> {
    let (mut a, mut b) = forty();
    let whole = a.try_scan(b"", &MOST, 16, 64)?.chunks;
    let (mut low, mut chunks) = (Vec::new(), Vec::new());
    let place = loop {
        let Scan { chunks: one, end } = b.try_scan(&low, &MOST, 1, 35)?;
        assert_eq!(one.len(), 1);
        chunks.extend(one);
        match end {
            ScanEnd::NoRoom { next } => low = next,
            ScanEnd::All { place } => break place,
            other => panic!("{other:?}"),
        }
    };
    assert_eq!(place, 40);
    assert_eq!(chunks, whole);
    let few = b.try_scan(b"", &MOST, 16, whole[0].pairs.len())?;
    assert_eq!(few, Scan { chunks: whole[..1].to_vec(), end: ScanEnd::NoRoom { next: whole[1].low.clone() } });
    Ok(())
}

#[test]
fn latches_of_others() -> Result<(), Box<dyn std::error::Error>> {
    let (mut a, mut b) = forty();
    let whole = a.try_scan(b"", &MOST, 16, 64)?.chunks;
    b.try_take(Latch::INDEX, Mode::X, Level::IndexTree)?;
    let busy = ScanEnd::Busy { next: b"k".to_vec(), latch: Latch::INDEX, word: 0 };
    assert_eq!(a.try_scan(b"k", &MOST, 16, 64)?, Scan { chunks: Vec::new(), end: busy });
    b.unlock(Latch::INDEX, Mode::X)?;
    // Beside X on the page of the second chunk the first one is there.
    let mut seconds = 0;
    for page in 2..16 {
        b.try_take(Latch::page(page), Mode::X, Level::TreeNode)?;
        let scan = a.try_scan(b"", &MOST, 16, 64)?;
        b.unlock(Latch::page(page), Mode::X)?;
        if scan.chunks.len() == 1 {
            let busy = ScanEnd::Busy { next: whole[1].low.clone(), latch: Latch::page(page), word: 0 };
            assert_eq!(scan, Scan { chunks: whole[..1].to_vec(), end: busy });
            seconds += 1;
        }
    }
    assert_eq!(seconds, 1);
    assert_eq!(a.held(), Ok(0));
    Ok(())
}
