//! The script format (no fault kinds beyond a line number) and the printing of replies and map, without
//! ` at PLACE` and chunks; the log for `coupled-log` alone.

use crate::keys::{self, Key};

#[derive(Clone, Copy, PartialEq, Eq, Debug)]
pub enum Kind { Insert, Delete, Get, Scan }

#[derive(Clone, Copy)]
pub struct Cmd { pub kind: Kind, pub len: u8, pub off: u32, pub k: Key, pub high: Key, pub v: u64 }

#[derive(Clone, Copy)]
pub enum Reply {
    Inserted,
    Duplicate,
    SpaceFull,
    Deleted(u64),
    Missing,
    Value(u64),
    Absent,
    /// Number of pairs; they stand one scan after another in `Out::pairs`.
    Scan(u32),
}

#[derive(Default)]
pub struct Out { pub replies: Vec<Reply>, pub pairs: Vec<(Key, u64)> }

fn number(f: &[u8]) -> Option<u64> {
    if f.is_empty() || f.len() > 20 || (f[0] == b'0' && f.len() > 1) { return None; }
    let mut n: u64 = 0;
    for &c in f {
        if !c.is_ascii_digit() { return None; }
        n = n.checked_mul(10)?.checked_add((c - b'0') as u64)?;
    }
    Some(n)
}

/// Sessions' commands, index 0 being session 1.
pub fn parse(text: &[u8]) -> Result<Vec<Vec<Cmd>>, String> {
    let mut sessions: Vec<Vec<Cmd>> = vec![Vec::new()];
    let (mut cur, mut at, mut line_no, mut first) = (0usize, 0usize, 0u32, true);
    while at < text.len() {
        line_no += 1;
        let end = text[at..].iter().position(|&c| c == b'\n').map_or(text.len(), |i| at + i);
        let line = &text[at..end];
        let off = at;
        at = end + 1;
        if line.is_empty() || line[0] == b'#' { continue; }
        let mut f = line.split(|&c| c == b' ');
        let bad = |k: &str| Err(format!("script: line {line_no}: {k}"));
        let word = f.next().unwrap();
        let (kind, want) = match word {
            b"insert" => (Some(Kind::Insert), 2),
            b"delete" => (Some(Kind::Delete), 1),
            b"get" => (Some(Kind::Get), 1),
            b"scan" => (Some(Kind::Scan), 2),
            b"session" => (None, 1),
            b"space" => (None, 2),
            _ => return bad("word"),
        };
        let mut v = [0u64; 2];
        let mut k = [keys::LEAST; 2];
        let mut n = 0;
        for x in f {
            if n == want { return bad("fields"); }
            // A command's first field is a key, and a scan's second one.
            if kind.is_some() && (n == 0 || kind == Some(Kind::Scan)) {
                match keys::parse(x) { Some(y) => k[n] = y, None => return bad("key") }
            } else {
                match number(x) { Some(y) => v[n] = y, None => return bad("number") }
            }
            n += 1;
        }
        if n != want { return bad("fields"); }
        match kind {
            Some(kind) => sessions[cur].push(Cmd { kind, len: line.len() as u8, off: off as u32, k: k[0], high: k[1], v: v[1] }),
            None if word == b"space" => if !first { return bad("space"); },
            None => {
                if v[0] < 1 || v[0] > 64 { return bad("session"); }
                cur = v[0] as usize - 1;
                while sessions.len() <= cur { sessions.push(Vec::new()); }
            }
        }
        first = false;
    }
    Ok(sessions)
}

#[inline]
fn put_num(b: &mut Vec<u8>, mut n: u64) {
    let mut t = [0u8; 20];
    let mut i = 20;
    loop {
        i -= 1;
        t[i] = b'0' + (n % 10) as u8;
        n /= 10;
        if n == 0 { break; }
    }
    b.extend_from_slice(&t[i..]);
}

/// Formats piecewise; `sink` gets pieces of about 1 MB.
pub fn print(text: &[u8], sessions: &[Vec<Cmd>], outs: &[Out], log: Option<&[u64]>, map: &[(Key, u64)], mut sink: impl FnMut(&[u8])) {
    let mut b: Vec<u8> = Vec::with_capacity((1 << 20) + 65536);
    macro_rules! flush { () => { if b.len() > 1 << 20 { sink(&b); b.clear(); } } }
    for (s, (cmds, out)) in sessions.iter().zip(outs).enumerate() {
        if cmds.is_empty() { continue; }
        b.extend_from_slice(b"session ");
        put_num(&mut b, s as u64 + 1);
        b.push(b'\n');
        let mut pair = 0usize;
        for (c, r) in cmds.iter().zip(&out.replies) {
            let o = c.off as usize;
            b.extend_from_slice(&text[o..o + c.len as usize]);
            b.extend_from_slice(b" -> ");
            match *r {
                Reply::Inserted => b.extend_from_slice(b"inserted"),
                Reply::Duplicate => b.extend_from_slice(b"duplicate"),
                Reply::SpaceFull => b.extend_from_slice(b"space full"),
                Reply::Deleted(v) => { b.extend_from_slice(b"deleted "); put_num(&mut b, v) }
                Reply::Missing => b.extend_from_slice(b"missing"),
                Reply::Value(v) => put_num(&mut b, v),
                Reply::Absent => b.extend_from_slice(b"none"),
                Reply::Scan(n) => {
                    put_num(&mut b, n as u64);
                    b.extend_from_slice(b" pairs");
                    for &(k, v) in &out.pairs[pair..pair + n as usize] {
                        b.extend_from_slice(b"\npair ");
                        keys::put(&mut b, k);
                        b.push(b' ');
                        put_num(&mut b, v);
                        flush!();
                    }
                    pair += n as usize;
                }
            }
            b.push(b'\n');
            flush!();
        }
    }
    if let Some(log) = log {
        let len = |w: u64| 5 + 2 * (w & 0xffff) as usize;
        let real = |w: u64| w >> 16 & 8 == 0;
        let (mut n, mut i) = (0, 0);
        while i < log.len() { n += real(log[i]) as u64; i += len(log[i]); }
        b.extend_from_slice(b"log ");
        put_num(&mut b, n);
        b.push(b'\n');
        i = 0;
        while i < log.len() {
            let w = log[i];
            if real(w) {
                put_num(&mut b, w >> 32);
                b.push(b' ');
                put_num(&mut b, log[i + 1]);
                b.extend_from_slice(if w >> 16 & 1 == 1 { b" insert " } else { b" delete " });
                keys::put(&mut b, Key { a: log[i + 2], b: log[i + 3] });
                if w >> 16 & 1 == 1 { b.push(b' '); put_num(&mut b, log[i + 4]); }
                b.push(b'\n');
                flush!();
            }
            i += len(w);
        }
    }
    b.extend_from_slice(b"map ");
    put_num(&mut b, map.len() as u64);
    b.push(b'\n');
    for &(k, v) in map {
        keys::put(&mut b, k);
        b.push(b' ');
        put_num(&mut b, v);
        b.push(b'\n');
        flush!();
    }
    sink(&b);
}
