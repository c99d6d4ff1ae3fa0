//! Eight threads look up, insert, delete and scan on one tree for some seconds. Each writes its commands and what it was told
//! into FOLDER/session.N, as bench/judge.py reads them; in the end the log goes to FOLDER/log, the words of the pages to
//! FOLDER/pages, and to FOLDER/map what the library makes of the log. judge_tree.py judges all of it. Words: FOLDER, and for how
//! many seconds (2).

use bukhloem::{Answer, CallError, Reply, ScanEnd, Session, Space, check_tree, replay};
use std::fs::{self, File};
use std::io::{self, BufWriter, Write};
use std::path::Path;
use std::thread;
use std::time::{Duration, Instant};

const THREADS: u64 = 8;
const KEYS: u64 = 4000;
const A_SECOND: f64 = 6000.0;

type Failed = Box<dyn std::error::Error + Send + Sync>;

struct Worker {
    session: Session,
    told: BufWriter<File>,
    calls: u64,
    refused: u64,
}

fn key(number: u64) -> String {
    format!("k{:04}", number.min(KEYS - 1))
}

fn text(answer: &Answer) -> String {
    let reply = match answer.reply {
        Reply::Found { value } => value.to_string(),
        Reply::NotFound => "none".into(),
        Reply::Inserted => "inserted".into(),
        Reply::Duplicate => "duplicate".into(),
        Reply::Deleted { value } => format!("deleted {value}"),
        Reply::Missing => "missing".into(),
        Reply::TooHigh => "too high".into(),
        Reply::SpaceFull { free, need } => format!("space full free {free} need {need}"),
        Reply::LogFull { used, cap } => format!("log full used {used} cap {cap}"),
    };
    format!("{reply} at {}", answer.place)
}

/// A key of the log, as it is written in a script: here each is of letters and digits.
fn spelled(key: &[u8]) -> String {
    let plain = key.iter().all(|byte| byte.is_ascii_alphanumeric()) && !key.is_empty();
    match plain {
        true => String::from_utf8_lossy(key).into_owned(),
        false => format!("x:{}", key.iter().map(|byte| format!("{byte:02x}")).collect::<String>()),
    }
}

impl Worker {
    // Tries a call until each latch is had.
    fn until_had(&mut self, mut call: impl FnMut(&mut Session) -> Result<Answer, CallError>) -> Result<Answer, Failed> {
        loop {
            match call(&mut self.session) {
                Ok(answer) => return Ok(answer),
                Err(CallError::Refused(status)) => return Err(status.into()),
                Err(_) => self.refused += 1,
            }
            thread::yield_now();
        }
    }

    // A scan goes on from where a latch was refused: it is one scan of the script, chunk by chunk.
    fn scan(&mut self, low: &str, high: &str) -> Result<(), Failed> {
        let (mut chunks, mut from) = (Vec::new(), low.as_bytes().to_vec());
        loop {
            let scan = self.session.try_scan(&from, high.as_bytes(), 64, 2048)?;
            chunks.extend(scan.chunks);
            from = match scan.end {
                ScanEnd::All { .. } => break,
                ScanEnd::NoRoom { next } => next,
                ScanEnd::Busy { next, .. } | ScanEnd::Raced { next, .. } => {
                    self.refused += 1;
                    thread::yield_now();
                    next
                }
            };
        }
        let count: usize = chunks.iter().map(|chunk| chunk.pairs.len()).sum();
        writeln!(self.told, "scan {low} {high} -> {count} pairs")?;
        for chunk in chunks {
            writeln!(self.told, "from {} to {} at {}", spelled(&chunk.low), spelled(&chunk.high), chunk.place)?;
            for (key, value) in chunk.pairs {
                writeln!(self.told, "pair {} {value}", spelled(&key))?;
            }
        }
        Ok(())
    }

    fn one(&mut self, dice: u64) -> Result<(), Failed> {
        let name = key(dice % KEYS);
        let (command, answer) = match dice / KEYS % 16 {
            0..9 => (format!("get {name}"), self.until_had(|s| s.try_get(name.as_bytes()))?),
            9..12 => (format!("insert {name} {dice}"), self.until_had(|s| s.try_insert(name.as_bytes(), dice))?),
            12..15 => (format!("delete {name}"), self.until_had(|s| s.try_delete(name.as_bytes()))?),
            _ => return self.scan(&name, &key(dice % KEYS + dice / KEYS / 16 % 60)),
        };
        writeln!(self.told, "{command} -> {}", text(&answer))?;
        Ok(())
    }

    // So many calls a second at most, so that every one can be judged.
    fn run(&mut self, number: u64, time: Duration) -> Result<(), Failed> {
        let (start, mut seed) = (Instant::now(), 0x1234_5678_9abc_def1 + number);
        while start.elapsed() < time {
            for _ in 0..100 {
                seed ^= seed << 13;
                seed ^= seed >> 7;
                seed ^= seed << 17;
                self.one(seed >> 20 & 0x7fff_ffff)?;
                self.calls += 1;
            }
            while start.elapsed() < time && self.calls as f64 > start.elapsed().as_secs_f64() * A_SECOND {
                thread::sleep(Duration::from_millis(1));
            }
        }
        Ok(())
    }
}

fn write_words(path: &Path, words: &[u64]) -> io::Result<()> {
    let mut file = BufWriter::new(File::create(path)?);
    words.iter().try_for_each(|word| file.write_all(&word.to_be_bytes()))
}

fn write_rest(folder: &Path, space: Space) -> Result<(), Failed> {
    let words = space.into_words().map_err(|_| "a session is left")?;
    if !check_tree(&words.pages)? {
        return Err("the pages are no tree".into());
    }
    let file = words.log_file();
    fs::write(folder.join("log"), &file)?;
    write_words(&folder.join("pages"), &words.pages)?;
    let mut map = BufWriter::new(File::create(folder.join("map"))?);
    for (key, value) in replay(&file)?.pairs {
        writeln!(map, "{} {value}", spelled(&key))?;
    }
    Ok(())
}

fn main() -> Result<(), Failed> {
    let words: Vec<String> = std::env::args().collect();
    let folder = Path::new(words.get(1).ok_or("no folder")?);
    let time = Duration::from_secs(words.get(2).map_or(Ok(2), |word| word.parse())?);
    let space = Space::open(4096, 16_777_216, THREADS as u32)?;
    // A new space gives its sessions from the greatest number down: so they stand in the log.
    let workers: Result<Vec<Worker>, Failed> = (1..=THREADS)
        .rev()
        .map(|number| {
            let told = BufWriter::new(File::create(folder.join(format!("session.{number}")))?);
            Ok(Worker { session: space.connect()?, told, calls: 0, refused: 0 })
        })
        .collect();
    let mut workers = workers?;
    thread::scope(|scope| {
        let running: Vec<_> = (1..).zip(&mut workers).map(|(number, worker)| scope.spawn(move || worker.run(number, time))).collect();
        running.into_iter().try_for_each(|thread| thread.join().expect("a thread panicked"))
    })?;
    let (calls, refused) = workers.iter().fold((0, 0), |sum, worker| (sum.0 + worker.calls, sum.1 + worker.refused));
    drop(workers);
    write_rest(folder, space)?;
    println!("{calls} calls, and {refused} that were refused a latch");
    Ok(())
}
