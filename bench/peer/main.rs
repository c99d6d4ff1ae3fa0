//! Runs a script on an engine of the same job, unproved, so that our figures have something to stand beside.
mod coupled;
mod keys;
mod maps;
mod script;
use keys::Key;
use script::{Cmd, Kind, Out, Reply};
use std::io::{Read, Write};
use std::sync::atomic::{AtomicUsize, Ordering};
use std::time::Instant;

#[derive(Clone, Copy, PartialEq, Eq, Debug)]
pub enum Ins { Done, Duplicate, SpaceFull }
pub trait Handle {
    fn insert(&mut self, k: Key, v: u64) -> Ins;
    fn delete(&mut self, k: Key) -> Option<u64>;
    fn get(&mut self, k: Key) -> Option<u64>;
    fn scan(&mut self, lo: Key, hi: Key, out: &mut Vec<(Key, u64)>);
}
pub trait Engine: Sync {
    const SEQUENTIAL: bool = false;
    type H<'a>: Handle where Self: 'a;
    fn handle(&self, session: usize) -> Self::H<'_>;
    fn dump(&self, out: &mut Vec<(Key, u64)>);
    fn stats(&self) -> Option<String> { None }
    fn log(&self) -> Option<Vec<u64>> { None }
    fn close(&self) {}
}

fn play<H: Handle>(h: &mut H, cmds: &[Cmd], out: &mut Out) {
    for c in cmds {
        let r = match c.kind {
            Kind::Insert => match h.insert(c.k, c.v) { Ins::Done => Reply::Inserted, Ins::Duplicate => Reply::Duplicate, Ins::SpaceFull => Reply::SpaceFull },
            Kind::Delete => h.delete(c.k).map_or(Reply::Missing, Reply::Deleted),
            Kind::Get => h.get(c.k).map_or(Reply::Absent, Reply::Value),
            Kind::Scan => { let n = out.pairs.len(); h.scan(c.k, c.high, &mut out.pairs); Reply::Scan((out.pairs.len() - n) as u32) }
        };
        out.replies.push(r);
    }
}

struct Opt { engine: String, quiet: bool, times: bool, stats: bool }

fn go<E: Engine>(o: &Opt, text: &[u8], sessions: Vec<Vec<Cmd>>, parse: f64, t_open: Instant, e: E) {
    let open = t_open.elapsed().as_secs_f64();
    let t0 = Instant::now();
    let mut outs: Vec<Out> = sessions.iter().map(|c| Out { replies: Vec::with_capacity(c.len()), pairs: Vec::new() }).collect();
    // From the first start of a session to the last end, both noted by the
    // session itself.
    let (mut t1, mut t2) = (t0, t0);
    if E::SEQUENTIAL {
        for (i, (c, out)) in sessions.iter().zip(&mut outs).enumerate() { play(&mut e.handle(i), c, out); }
        t2 = Instant::now();
    } else {
        let live = sessions.iter().filter(|c| !c.is_empty()).count();
        let gate = AtomicUsize::new(0); // a spinning start, so that short runs do overlap
        std::thread::scope(|s| {
            let mut hs = Vec::new();
            for (i, (c, out)) in sessions.iter().zip(&mut outs).enumerate() {
                if c.is_empty() { continue; }
                let (e, gate) = (&e, &gate);
                hs.push(s.spawn(move || { let mut h = e.handle(i); gate.fetch_add(1, Ordering::SeqCst); let mut turns = 0u32; while gate.load(Ordering::SeqCst) < live { turns += 1; if turns % 4096 == 0 { std::thread::yield_now() } else { std::hint::spin_loop() } } let a = Instant::now(); play(&mut h, c, out); let z = Instant::now(); drop(h); (a, z) }));
            }
            let at: Vec<_> = hs.into_iter().map(|h| h.join().unwrap()).collect();
            t1 = at.iter().map(|x| x.0).min().unwrap_or(t0);
            t2 = at.iter().map(|x| x.1).max().unwrap_or(t1);
        });
    }
    let run = t2.duration_since(t1).as_secs_f64();
    let spawn = t1.duration_since(t0).as_secs_f64();
    let t3 = Instant::now();
    let log = e.log();
    let log = log.as_deref();
    let mut map = Vec::new();
    e.dump(&mut map);
    let mut bytes = 0usize;
    if o.quiet {
        let mut null = std::fs::OpenOptions::new().write(true).open("/dev/null").unwrap();
        script::print(text, &sessions, &outs, log, &map, |b| { bytes += b.len(); null.write_all(b).unwrap() });
    } else {
        let mut so = std::io::stdout().lock();
        script::print(text, &sessions, &outs, log, &map, |b| { bytes += b.len(); so.write_all(b).unwrap() });
        so.flush().unwrap();
    }
    let print = t3.elapsed().as_secs_f64();
    let n: usize = sessions.iter().map(|c| c.len()).sum();
    if o.quiet || o.times {
        let line = format!("engine {} commands {} parse {:.6} open {:.6} spawn {:.6} run {:.6} print {:.6} bytes {} map {}", o.engine, n, parse, open, spawn, run, print, bytes, map.len());
        if o.quiet { println!("{line}") } else { eprintln!("{line}") }
    }
    if o.stats { if let Some(s) = e.stats() { eprintln!("stats {s}") } }
    e.close();
    std::process::exit(0)
}

fn main() {
    let mut o = Opt { engine: String::new(), quiet: false, times: false, stats: false };
    let mut a = std::env::args().skip(1);
    while let Some(x) = a.next() {
        match x.as_str() {
            "--engine" => o.engine = a.next().unwrap_or_default(),
            "--quiet" => o.quiet = true,
            "--times" => o.times = true,
            "--stats" => o.stats = true,
            _ => { eprintln!("usage: peer --engine NAME [--quiet] [--times] [--stats] < script"); std::process::exit(1) }
        }
    }
    let mut text = Vec::new();
    std::io::stdin().lock().read_to_end(&mut text).unwrap();
    let t = Instant::now();
    let sessions = match script::parse(&text) { Ok(s) => s, Err(e) => { eprintln!("{e}"); std::process::exit(2) } };
    let parse = t.elapsed().as_secs_f64();
    let t = Instant::now();
    match o.engine.clone().as_str() {
        "rwlock-btree" => go(&o, &text, sessions, parse, t, maps::RwTree::open()),
        "coupled" => go(&o, &text, sessions, parse, t, coupled::Coupled::<false>::open()),
        "coupled-log" => go(&o, &text, sessions, parse, t, coupled::Coupled::<true>::open()),
        name => { eprintln!("no engine {name}"); std::process::exit(1) }
    }
}
