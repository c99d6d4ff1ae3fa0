//! One std map behind one lock.
use crate::keys::Key;
use crate::{Engine, Handle, Ins};
use std::collections::btree_map::Entry;
use std::collections::BTreeMap;
use std::sync::RwLock;

#[repr(align(128))]
pub struct RwTree(RwLock<BTreeMap<Key, u64>>);
impl RwTree { pub fn open() -> Self { RwTree(RwLock::new(BTreeMap::new())) } }
impl Engine for RwTree {
    type H<'a> = &'a RwTree;
    fn handle(&self, _s: usize) -> &RwTree { self }
    fn dump(&self, out: &mut Vec<(Key, u64)>) { out.extend(self.0.read().unwrap().iter().map(|(k, v)| (*k, *v))) }
}
impl Handle for &RwTree {
    fn insert(&mut self, k: Key, v: u64) -> Ins {
        match self.0.write().unwrap().entry(k) {
            Entry::Vacant(e) => { e.insert(v); Ins::Done }
            Entry::Occupied(_) => Ins::Duplicate,
        }
    }
    fn delete(&mut self, k: Key) -> Option<u64> { self.0.write().unwrap().remove(&k) }
    fn get(&mut self, k: Key) -> Option<u64> { self.0.read().unwrap().get(&k).copied() }
    fn scan(&mut self, lo: Key, hi: Key, out: &mut Vec<(Key, u64)>) {
        if lo <= hi { out.extend(self.0.read().unwrap().range(lo..=hi).map(|(k, v)| (*k, *v))) }
    }
}
