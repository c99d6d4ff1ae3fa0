//! S and X on one latch beside parking_lot's RwLock: one thread alone, and then eight that share the latch.

use bukhloem::{Latch, Level, Mode, Space, Status};
use parking_lot::RwLock;
use std::hint::black_box;
use std::sync::atomic::{AtomicBool, AtomicU64, Ordering};
use std::thread;
use std::time::{Duration, Instant};

const ROUNDS: u32 = 20_000_000;
const THREADS: usize = 8;
const PAGE: Latch = Latch(7);

/// The nanoseconds of a round.
fn nanos(what: impl FnOnce() -> Result<(), Status>) -> Result<f64, Status> {
    let start = Instant::now();
    what()?;
    Ok(start.elapsed().as_secs_f64() / f64::from(ROUNDS) * 1e9)
}

fn take_and_leave(lock: &RwLock<u64>, mode: Mode) {
    match mode {
        Mode::X => drop(black_box(lock.write())),
        _ => drop(black_box(lock.read())),
    }
}

fn alone(mode: Mode) -> Result<(), Status> {
    let space = Space::open(16, 8196, 1)?;
    let mut session = space.connect()?;
    let lock = RwLock::new(0u64);
    let ours = nanos(|| {
        for _ in 0..ROUNDS {
            session.try_take(PAGE, mode, Level::TreeNode)?;
            session.unlock(PAGE, mode)?;
        }
        Ok(())
    })?;
    let theirs = nanos(|| {
        (0..ROUNDS).for_each(|_| take_and_leave(&lock, mode));
        Ok(())
    })?;
    println!("{mode:?} and back, alone: {ours:.1} ns, parking_lot {theirs:.1} ns");
    Ok(())
}

/// How many rounds eight threads make in a second, each by a call of its own.
fn rounds(calls: Vec<impl FnMut() + Send>) -> u64 {
    let (stop, total) = (AtomicBool::new(false), AtomicU64::new(0));
    thread::scope(|scope| {
        for mut call in calls {
            let (stop, total) = (&stop, &total);
            scope.spawn(move || {
                let mut count = 0;
                while !stop.load(Ordering::Relaxed) {
                    call();
                    count += 1;
                }
                total.fetch_add(count, Ordering::Relaxed);
            });
        }
        thread::sleep(Duration::from_secs(1));
        stop.store(true, Ordering::Relaxed);
    });
    total.into_inner()
}

fn shared(mode: Mode) -> Result<(), Status> {
    let space = Space::open(16, 8196, THREADS as u32)?;
    let sessions: Result<Vec<_>, _> = (0..THREADS).map(|_| space.connect()).collect();
    let ours = sessions?.into_iter().map(|mut session| {
        move || {
            session.lock(PAGE, mode, Level::TreeNode).unwrap();
            session.unlock(PAGE, mode).unwrap();
        }
    });
    let ours = rounds(ours.collect());
    let lock = RwLock::new(0u64);
    let theirs = rounds((0..THREADS).map(|_| || take_and_leave(&lock, mode)).collect());
    println!("{mode:?} and back, eight threads: {ours} rounds a second, parking_lot {theirs}");
    Ok(())
}

fn main() -> Result<(), Status> {
    for mode in [Mode::S, Mode::X] {
        alone(mode)?;
        shared(mode)?;
    }
    Ok(())
}
