//! Wrong arguments of every kind: a status, and nothing is changed.

use bukhloem::{CallError, Latch, Level, Mode, Reply, Session, Space, Status};

const NODE: Level = Level::TreeNode;

fn is_send<T: Send>() {}
fn is_sync<T: Sync>() {}

#[test]
fn sessions_move_and_spaces_are_shared() {
    is_send::<Session>();
    is_send::<Space>();
    is_sync::<Space>();
}

#[test]
fn sizes() {
    let refused = |pages, words, sessions| Space::open(pages, words, sessions).err();
    assert_eq!(refused(15, 8196, 1), Some(Status::BAD_PAGES));
    assert_eq!(refused(4097, 8196, 1), Some(Status::BAD_PAGES));
    assert_eq!(refused(16, 8195, 1), Some(Status::BAD_LOG));
    assert_eq!(refused(16, 8196, 0), Some(Status::BAD_SESSIONS));
    assert_eq!(refused(16, 8196, 1025), Some(Status::BAD_SESSIONS));
}

#[test]
fn sessions_come_and_go() -> Result<(), Status> {
    let space = Space::open(16, 8196, 1)?;
    let one = space.connect()?;
    assert_eq!(space.connect().err(), Some(Status::NO_SESSION_LEFT));
    drop(one);
    space.connect().map(drop)
}

#[test]
fn wishes() -> Result<(), Status> {
    let space = Space::open(16, 8196, 2)?;
    let (mut a, mut b) = (space.connect()?, space.connect()?);
    let page = Latch::page(5);
    assert_eq!(a.try_take(Latch(18), Mode::S, NODE), Err(Status::BAD_LATCH));
    assert_eq!(a.unlock(page, Mode::S), Err(Status::NOT_HELD));
    assert_eq!(a.ready(page), Err(Status::WRONG_PHASE));
    a.try_take(page, Mode::S, NODE)?;
    assert_eq!(a.try_take(page, Mode::S, NODE), Err(Status::NOT_ALLOWED));
    assert_eq!(a.try_take(Latch::INDEX, Mode::S, Level::IndexTree), Err(Status::NOT_ALLOWED));
    assert_eq!(b.try_take(page, Mode::X, NODE), Err(Status::BUSY));
    assert_eq!(b.reserve(page, NODE), Err(Status::NEXT));
    assert_eq!(b.ready(page), Err(Status::NOT_READY));
    a.unlock(page, Mode::S)?;
    b.ready(page)?;
    b.unlock(page, Mode::X)
}

#[test]
fn readers() -> Result<(), Status> {
    let space = Space::open(16, 8196, 2)?;
    let (mut a, mut b) = (space.connect()?, space.connect()?);
    let page = Latch::page(5);
    assert_eq!(a.word(Latch(18)), Err(Status::BAD_LATCH));
    assert_eq!(a.word(page), Ok(0x2000_0000));
    assert_eq!(a.may_take(page, Mode::S, NODE), Ok(()));
    a.try_take(page, Mode::S, NODE)?;
    assert_eq!(a.held(), Ok(1));
    assert_eq!(a.counts(page).map(|c| (c.s, c.sx, c.x)), Ok((1, 0, 0)));
    assert_eq!(a.may_take(page, Mode::X, NODE), Err(Status::NOT_ALLOWED));
    assert_eq!(b.word(page), Ok(0x1fff_ffff));
    assert_eq!(b.reserve(page, NODE), Err(Status::NEXT));
    assert_eq!(b.awaits(), Ok(Some(page)));
    assert_eq!(b.word(page), Err(Status::WRONG_PHASE));
    a.unlock(page, Mode::S)?;
    b.ready(page)?;
    assert_eq!(b.awaits(), Ok(None));
    b.unlock(page, Mode::X)
}

#[test]
fn calls_on_the_tree() -> Result<(), Box<dyn std::error::Error>> {
    let space = Space::open(16, 100_000, 2)?;
    let (mut a, mut b) = (space.connect()?, space.connect()?);
    assert_eq!(a.try_get(&[7; 16]), Err(CallError::Refused(Status::BAD_KEY)));
    assert_eq!(a.try_get(b"seven")?.reply, Reply::NotFound);
    assert_eq!(a.try_delete(b"seven")?.reply, Reply::Missing);
    assert_eq!(a.try_insert(b"seven", 70)?.place, 0);
    assert_eq!(b.try_insert(b"seven", 71)?.reply, Reply::Duplicate);
    assert_eq!(b.try_get(b"seven")?.reply, Reply::Found { value: 70 });
    assert_eq!(b.try_insert(b"", 0)?.reply, Reply::Inserted);
    assert_eq!(a.try_get(b"")?.place, 2);
    a.try_take(Latch::INDEX, Mode::X, Level::IndexTree)?;
    assert_eq!(a.try_get(b"seven"), Err(CallError::Refused(Status::NOT_ALLOWED)));
    let busy = CallError::Busy { latch: Latch::INDEX, word: 0 };
    assert_eq!(b.try_get(b"seven"), Err(busy));
    assert_eq!(b.try_insert(b"eight", 80), Err(busy));
    assert_eq!(b.try_delete(b"seven"), Err(busy));
    a.unlock(Latch::INDEX, Mode::X)?;
    assert_eq!(b.try_delete(b"seven")?.reply, Reply::Deleted { value: 70 });
    let full = (0u64..).find_map(|n| a.try_insert(&n.to_be_bytes(), n).ok().filter(|answer| answer.reply != Reply::Inserted));
    assert!(matches!(full.map(|answer| answer.reply), Some(Reply::SpaceFull { .. } | Reply::LogFull { .. })));
    Ok(())
}

#[test]
fn a_closed_space_has_its_log() -> Result<(), Status> {
    let space = Space::open(16, 8196, 1)?;
    let session = space.connect()?;
    let Err(space) = space.into_log() else {
        panic!("a session has the space")
    };
    drop(session);
    assert_eq!(space.into_log().ok(), Some(Vec::new()));
    Ok(())
}
