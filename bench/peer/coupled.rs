//! A plain latch-coupled B+tree: 4,096 pages of 35 records, one std RwLock a
//! page, fixed root page, no log, no SX. Readers and optimistic writers couple
//! S latches down and take S or X on the leaf; a writer whose leaf may split or
//! merge starts again with X latches, keeping the unsafe part of its path.
//! Latches are taken downward and, among leaves, left to right.
//!
//! With LOG (engine `coupled-log`) each change also appends an entry of about
//! our size to one log under one mutex, while its X latches are held: 23
//! words an insert, 17 a delete, 280 more a split, 416 more a merge (pages as record
//! heaps, keys of two words). The words written besides the head are fillers.
use crate::keys::{Key, GREATEST, LEAST};
use crate::{Engine, Handle, Ins};
use std::sync::{Mutex, RwLock, RwLockReadGuard, RwLockWriteGuard};

pub const PAGES: usize = 4096;
pub const RECS: usize = 35;
const MIN: usize = 17;
const ROOT: usize = 1;

pub struct Page { n: u32, level: u32, next: u32, keys: [Key; RECS], vals: [u64; RECS] }

#[repr(align(64))]
struct Slot(RwLock<Page>);

pub struct Coupled<const LOG: bool> { pages: Vec<Slot>, free: Mutex<Vec<u32>>, log: Mutex<Vec<u64>>, pub stats: Mutex<Stats> }

#[derive(Default, Clone, Debug)]
pub struct Stats { pub ins: u64, pub ins_shift: u64, pub del: u64, pub del_shift: u64, pub splits: u64, pub raises: u64, pub merges: u64, pub lifts: u64, pub restarts: u64, pub low: u64 }

type R<'a> = RwLockReadGuard<'a, Page>;
type W<'a> = RwLockWriteGuard<'a, Page>;

impl Page {
    const fn empty() -> Page { Page { n: 0, level: 0, next: 0, keys: [LEAST; RECS], vals: [0; RECS] } }
    #[inline] fn keys(&self) -> &[Key] { &self.keys[..self.n as usize] }
    #[inline]
    fn find(&self, k: Key) -> Result<usize, usize> { self.keys().binary_search(&k) }
    /// Record of the child that has `k`; the first record counts as below all.
    #[inline]
    fn route(&self, k: Key) -> usize { self.keys().partition_point(|&x| x <= k).saturating_sub(1) }
    #[inline] fn child(&self, k: Key) -> usize { self.vals[self.route(k)] as usize }
    #[inline]
    fn put(&mut self, i: usize, k: Key, v: u64) {
        let n = self.n as usize;
        self.keys.copy_within(i..n, i + 1);
        self.vals.copy_within(i..n, i + 1);
        self.keys[i] = k;
        self.vals[i] = v;
        self.n += 1;
    }
    #[inline]
    fn cut(&mut self, i: usize) -> u64 {
        let (n, v) = (self.n as usize, self.vals[i]);
        self.keys.copy_within(i + 1..n, i);
        self.vals.copy_within(i + 1..n, i);
        self.n -= 1;
        v
    }
    fn full(&self) -> bool { self.n as usize == RECS }
    fn append(&mut self, o: &Page) {
        let (a, b) = (self.n as usize, o.n as usize);
        self.keys[a..a + b].copy_from_slice(&o.keys[..b]);
        self.vals[a..a + b].copy_from_slice(&o.vals[..b]);
        self.n += o.n;
    }
    /// Of the 36 records with the new one the last 18 go to `r`.
    fn split(&mut self, i: usize, k: Key, v: u64, r: &mut Page) {
        const H: usize = (RECS + 1) / 2;
        let from = if i < H { H - 1 } else { H };
        let m = RECS - from;
        r.keys[..m].copy_from_slice(&self.keys[from..]);
        r.vals[..m].copy_from_slice(&self.vals[from..]);
        (r.n, r.level, r.next) = (m as u32, self.level, self.next);
        self.n = from as u32;
        if i < H { self.put(i, k, v) } else { r.put(i - H, k, v) }
    }
}

impl<const LOG: bool> Coupled<LOG> {
    pub fn open() -> Self {
        Coupled {
            pages: (0..PAGES).map(|_| Slot(RwLock::new(Page::empty()))).collect(),
            free: Mutex::new((2..PAGES as u32).rev().collect()),
            log: Mutex::new(Vec::with_capacity(if LOG { 16777216 } else { 0 })), // not touched
            stats: Default::default(),
        }
    }
    #[inline]
    fn append(&self, who: &mut Who, flags: u64, k: Key, v: u64, writes: usize) {
        if !LOG { return; }
        let mut e = [0u64; 23];
        let first = writes.min(9);
        who.number += (flags != MORE) as u64;
        e[..5].copy_from_slice(&[who.session << 32 | flags << 16 | writes as u64, who.number, k.a, k.b, v]);
        for i in 0..first { (e[5 + 2 * i], e[6 + 2 * i]) = (i as u64, k.a); }
        let mut l = self.log.lock().unwrap();
        l.extend_from_slice(&e[..5 + 2 * first]);
        for i in first..writes { l.extend_from_slice(&[i as u64, k.a]); }
    }
    #[inline] fn r(&self, p: usize) -> R<'_> { self.pages[p].0.read().unwrap() }
    #[inline] fn w(&self, p: usize) -> W<'_> { self.pages[p].0.write().unwrap() }

    #[inline]
    fn leaf_s(&self, k: Key) -> R<'_> {
        let mut g = self.r(ROOT);
        while g.level > 0 { let c = self.r(g.child(k)); g = c; }
        g
    }
    /// The leaf in X, the upper pages by S coupling; true where it is the root.
    #[inline]
    fn leaf_x(&self, k: Key) -> (W<'_>, bool) {
        loop {
            let mut g = self.r(ROOT);
            if g.level == 0 {
                drop(g);
                let w = self.w(ROOT);
                if w.level == 0 { return (w, true); }
                continue;
            }
            while g.level > 1 { let c = self.r(g.child(k)); g = c; }
            return (self.w(g.child(k)), false);
        }
    }
    /// X coupling; keeps the pages from the last safe one on.
    fn path_x(&self, k: Key, safe: impl Fn(&Page) -> bool) -> Vec<(usize, W<'_>)> {
        let mut path = Vec::with_capacity(8);
        path.push((ROOT, self.w(ROOT)));
        loop {
            let g: &W = &path[path.len() - 1].1;
            if g.level == 0 { return path; }
            let c = g.child(k);
            let w = self.w(c);
            if safe(&w) { path.clear(); }
            path.push((c, w));
        }
    }
    fn insert_smo(&self, k: Key, v: u64, st: &mut Stats, who: &mut Who) -> Ins {
        st.restarts += 1;
        let mut path = self.path_x(k, |p| !p.full());
        let (_, leaf) = path.last_mut().unwrap();
        let at = match leaf.find(k) { Ok(_) => return Ins::Duplicate, Err(i) => i };
        if !leaf.full() { leaf.put(at, k, v); self.append(who, 1, k, v, 9); st.ins += 1; return Ins::Done; }
        let raise = path[0].0 == ROOT && path[0].1.full();
        let need = if raise { path.len() + 1 } else { path.len() - 1 };
        let mut fresh: Vec<u32> = {
            let mut f = self.free.lock().unwrap();
            if f.len() < need { return Ins::SpaceFull; }
            let n = f.len() - need;
            f.split_off(n)
        };
        self.append(who, 5, k, v, 9 + 140 * need);
        let (mut k, mut v) = (k, v);
        st.ins += 1;
        while let Some((no, mut p)) = path.pop() {
            let at = p.keys().partition_point(|&x| x < k);
            if !p.full() { p.put(at, k, v); break; }
            st.splits += 1;
            let right = fresh.pop().unwrap();
            let mut r = self.w(right as usize);
            p.split(at, k, v, &mut r);
            (k, v) = (r.keys[0], right as u64);
            if p.level == 0 { p.next = right; }
            if no == ROOT {
                st.raises += 1;
                let left = fresh.pop().unwrap();
                let mut l = self.w(left as usize);
                (l.n, l.level, l.next) = (0, p.level, p.next);
                l.append(&p);
                (p.n, p.next) = (0, 0);
                p.level += 1;
                p.put(0, LEAST, left as u64);
                p.put(1, k, v);
                break;
            }
        }
        Ins::Done
    }
    fn delete_smo(&self, k: Key, st: &mut Stats, who: &mut Who) -> Option<u64> {
        st.restarts += 1;
        let mut path = self.path_x(k, |p| p.n as usize > MIN);
        let (_, leaf) = path.last_mut().unwrap();
        let at = leaf.find(k).ok()?;
        st.del += 1;
        let old = leaf.cut(at);
        self.append(who, 2, k, 0, 6);
        let mut freed: Vec<u32> = Vec::new();
        while path.len() > 1 {
            let (no, p) = path.pop().unwrap();
            if p.n as usize >= MIN { break; }
            drop(p); // siblings are taken left to right; the parent's X keeps writers off
            let (pno, parent) = path.last_mut().unwrap();
            let i = parent.route(k);
            debug_assert_eq!(parent.vals[i], no as u64);
            let mut done = false;
            if i > 0 {
                let mut l = self.w(parent.vals[i - 1] as usize);
                let p = self.w(no);
                if l.n as usize + p.n as usize <= RECS {
                    l.append(&p);
                    l.next = p.next;
                    parent.cut(i);
                    freed.push(no as u32);
                    done = true;
                }
            }
            if !done && i + 1 < parent.n as usize {
                let rno = parent.vals[i + 1];
                let mut p = self.w(no);
                let r = self.w(rno as usize);
                if r.n as usize + p.n as usize <= RECS {
                    p.append(&r);
                    p.next = r.next;
                    parent.cut(i + 1);
                    freed.push(rno as u32);
                    done = true;
                }
            }
            if !done { st.low += 1; break; }
            st.merges += 1;
            self.append(who, MORE, k, 0, 208);
            if *pno == ROOT {
                if parent.n == 1 {
                    st.lifts += 1;
                    let c = parent.vals[0];
                    let ch = self.w(c as usize);
                    (parent.n, parent.level, parent.next) = (0, ch.level, ch.next);
                    parent.append(&ch);
                    freed.push(c as u32);
                }
                break;
            }
        }
        drop(path);
        if !freed.is_empty() { self.free.lock().unwrap().extend(freed); }
        Some(old)
    }
    /// Shape test, single-threaded: keys in range, links, fill, page count.
    pub fn check(&self) -> Result<(usize, usize), String> {
        fn go<const LOG: bool>(t: &Coupled<LOG>, p: usize, lo: Key, hi: Option<Key>, level: Option<u32>, leaves: &mut Vec<usize>, used: &mut usize) -> Result<(), String> {
            let g = t.r(p);
            *used += 1;
            if level.is_some_and(|l| l != g.level) { return Err(format!("level of {p}")); }
            if g.keys().windows(2).any(|w| w[0] >= w[1]) { return Err(format!("order in {p}")); }
            if let Some(&f) = g.keys().first() {
                if f < lo || (g.level > 0 && f != lo) { return Err(format!("first key of {p}")); }
                if hi.is_some_and(|h| g.keys()[g.n as usize - 1] >= h) { return Err(format!("last key of {p}")); }
            } else if p != ROOT { return Err(format!("empty page {p}")); }
            if g.level == 0 { leaves.push(p); return Ok(()); }
            for i in 0..g.n as usize {
                let h = if i + 1 < g.n as usize { Some(g.keys[i + 1]) } else { hi };
                go(t, g.vals[i] as usize, g.keys[i], h, Some(g.level - 1), leaves, used)?;
            }
            Ok(())
        }
        let (mut leaves, mut used) = (Vec::new(), 0);
        go(self, ROOT, LEAST, None, None, &mut leaves, &mut used)?;
        for (i, &l) in leaves.iter().enumerate() {
            if self.r(l).next as usize != leaves.get(i + 1).copied().unwrap_or(0) { return Err(format!("link of {l}")); }
        }
        if used + self.free.lock().unwrap().len() != PAGES - 1 { return Err("pages lost".into()); }
        Ok((used, self.r(ROOT).level as usize))
    }
}

const MORE: u64 = 8; // the words of a merge, behind their delete's entry
pub struct Who { session: u64, number: u64 }
pub struct H<'a, const LOG: bool> { t: &'a Coupled<LOG>, st: Stats, who: Who }
impl<const LOG: bool> Drop for H<'_, LOG> {
    fn drop(&mut self) {
        let mut s = self.t.stats.lock().unwrap();
        let o = &self.st;
        s.ins += o.ins; s.ins_shift += o.ins_shift; s.del += o.del; s.del_shift += o.del_shift;
        s.splits += o.splits; s.raises += o.raises; s.merges += o.merges; s.lifts += o.lifts; s.restarts += o.restarts; s.low += o.low;
    }
}
impl<const LOG: bool> Engine for Coupled<LOG> {
    type H<'a> = H<'a, LOG>;
    fn handle(&self, s: usize) -> H<'_, LOG> { H { t: self, st: Default::default(), who: Who { session: s as u64 + 1, number: 0 } } }
    fn log(&self) -> Option<Vec<u64>> { LOG.then(|| std::mem::take(&mut *self.log.lock().unwrap())) }
    fn dump(&self, out: &mut Vec<(Key, u64)>) { self.handle(0).scan(LEAST, GREATEST, out) }
    fn stats(&self) -> Option<String> {
        let s = self.stats.lock().unwrap().clone();
        let shape = match self.check() { Ok((p, l)) => format!("pages={p} root_level={l}"), Err(e) => format!("BROKEN {e}") };
        // Rough log words of the product for the same changes.
        let words = 23 * s.ins + 17 * s.del + 280 * s.splits + 416 * s.merges;
        Some(format!("{shape} {s:?} est_log_words={words}"))
    }
}
impl<const LOG: bool> Handle for H<'_, LOG> {
    #[inline]
    fn insert(&mut self, k: Key, v: u64) -> Ins {
        let (mut w, _) = self.t.leaf_x(k);
        match w.find(k) {
            Ok(_) => Ins::Duplicate,
            Err(i) if !w.full() => {
                self.st.ins += 1;
                self.st.ins_shift += w.n as u64 - i as u64;
                w.put(i, k, v);
                self.t.append(&mut self.who, 1, k, v, 9);
                Ins::Done
            }
            Err(_) => { drop(w); self.t.insert_smo(k, v, &mut self.st, &mut self.who) }
        }
    }
    #[inline]
    fn delete(&mut self, k: Key) -> Option<u64> {
        let (mut w, root) = self.t.leaf_x(k);
        let i = w.find(k).ok()?;
        if root || w.n as usize > MIN {
            self.st.del += 1;
            self.st.del_shift += w.n as u64 - i as u64;
            let old = w.cut(i);
            self.t.append(&mut self.who, 2, k, 0, 6);
            return Some(old);
        }
        drop(w);
        self.t.delete_smo(k, &mut self.st, &mut self.who)
    }
    #[inline]
    fn get(&mut self, k: Key) -> Option<u64> {
        let g = self.t.leaf_s(k);
        g.find(k).ok().map(|i| g.vals[i])
    }
    fn scan(&mut self, lo: Key, hi: Key, out: &mut Vec<(Key, u64)>) {
        if lo > hi { return; }
        let mut g = self.t.leaf_s(lo);
        let mut from = g.keys().partition_point(|&x| x < lo);
        loop {
            let n = g.n as usize;
            let to = if n > 0 && g.keys[n - 1] > hi { g.keys().partition_point(|&x| x <= hi) } else { n };
            out.extend(g.keys[from..to].iter().copied().zip(g.vals[from..to].iter().copied()));
            if to < n || g.next == 0 { return; }
            let nx = self.t.r(g.next as usize);
            g = nx;
            from = 0;
        }
    }
}
