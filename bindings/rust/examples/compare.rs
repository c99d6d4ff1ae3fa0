//! S and X on one latch, one thread alone: ours, and std's RwLock (parking_lot's needs cargo).

use bukhloem::{Latch, Level, Mode, Space, Status};
use std::hint::black_box;
use std::sync::RwLock;
use std::time::Instant;

const ROUNDS: u32 = 20_000_000;

fn nanos(what: impl Fn() -> Result<(), Status>) -> Result<f64, Status> {
    let start = Instant::now();
    what()?;
    Ok(start.elapsed().as_secs_f64() / f64::from(ROUNDS) * 1e9)
}

fn main() -> Result<(), Status> {
    let space = Space::open(16, 8196, 1)?;
    let session = std::cell::RefCell::new(space.connect()?);
    let lock = RwLock::new(0u64);
    for mode in [Mode::S, Mode::X] {
        let ours = nanos(|| {
            let mut session = session.borrow_mut();
            for _ in 0..ROUNDS {
                session.try_take(Latch::page(5), mode, Level::TreeNode)?;
                session.unlock(Latch::page(5), mode)?;
            }
            Ok(())
        })?;
        let theirs = nanos(|| {
            for _ in 0..ROUNDS {
                match mode {
                    Mode::X => drop(black_box(lock.write().unwrap())),
                    _ => drop(black_box(lock.read().unwrap())),
                }
            }
            Ok(())
        })?;
        println!("{mode:?} and back: {ours:.1} ns, RwLock {theirs:.1} ns");
    }
    Ok(())
}
