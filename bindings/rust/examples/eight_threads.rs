//! Eight threads take latches of one tree, and a judge beside each latch looks whether what they were told can be.

use bukhloem::{Latch, Level, Mode, Space};
use std::sync::atomic::{AtomicI32, AtomicU64, Ordering::SeqCst};
use std::time::{Duration, Instant};

#[derive(Default)]
struct Judge {
    held: [AtomicI32; 3],
}

impl Judge {
    // Whether the grant is one that the others allow: an owner of X is alone, an owner of SX but for readers.
    fn allows(&self, mode: Mode) -> bool {
        let before = self.held[mode as usize].fetch_add(1, SeqCst);
        let [s, sx, x] = [0, 1, 2].map(|m| self.held[m].load(SeqCst));
        match mode {
            Mode::S => x == 0,
            Mode::Sx => before == 0 && x == 0,
            Mode::X => before == 0 && s == 0 && sx == 0,
        }
    }

    fn gives_back(&self, mode: Mode) {
        self.held[mode as usize].fetch_sub(1, SeqCst);
    }
}

fn main() -> Result<(), bukhloem::Status> {
    let seconds = std::env::args().nth(1).and_then(|s| s.parse().ok()).unwrap_or(2);
    let space = Space::open(16, 8196, 8)?;
    let judges: [Judge; 4] = Default::default();
    let (grants, illegal) = (AtomicU64::new(0), AtomicU64::new(0));
    let end = Instant::now() + Duration::from_secs(seconds);
    std::thread::scope(|scope| {
        for thread in 0..8u32 {
            let mut session = space.connect().expect("eight sessions");
            let (judges, grants, illegal) = (&judges, &grants, &illegal);
            scope.spawn(move || {
                let mut seed = thread + 1;
                while Instant::now() < end {
                    seed = seed.wrapping_mul(1_664_525).wrapping_add(1_013_904_223);
                    let page = (seed >> 8) % 4;
                    let mode = [Mode::X, Mode::Sx, Mode::S, Mode::S][(seed >> 20) as usize % 4];
                    let latch = Latch::page(1 + page);
                    session.lock(latch, mode, Level::TreeNode).expect("a grant");
                    if !judges[page as usize].allows(mode) {
                        illegal.fetch_add(1, SeqCst);
                    }
                    judges[page as usize].gives_back(mode);
                    session.unlock(latch, mode).expect("a release");
                    grants.fetch_add(1, SeqCst);
                }
            });
        }
    });
    println!("{} grants, {} illegal", grants.into_inner(), illegal.load(SeqCst));
    std::process::exit((illegal.into_inner() > 0) as i32);
}
