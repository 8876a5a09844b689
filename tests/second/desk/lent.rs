//! Lists lent to the library. Guard words stand before and after each, so that a store outside the
//! list is noticed. With `--cfg exact` there are none, and each list is a block of its own of just its
//! length, so that Valgrind notices a read outside it too.

use crate::store::pools::{Mem, Scratch};

const GUARDS: usize = if cfg!(exact) { 0 } else { 4 };
const GUARD: u64 = 0x6775_6172_6420_2021;

/// A list of words between its guards.
#[derive(Clone, Debug, Default)]
pub struct List {
    words: Vec<u64>,
}

impl List {
    pub fn new(words: &[u64]) -> List {
        let mut list = List::default();
        list.set(words);
        list
    }

    /// Takes these words, in memory used before where that is long enough.
    pub fn set(&mut self, words: &[u64]) {
        if cfg!(exact) {
            self.words = words.to_vec();
            return;
        }
        self.words.clear();
        self.words.extend([GUARD; GUARDS]);
        self.words.extend_from_slice(words);
        self.words.extend([GUARD; GUARDS]);
    }

    pub fn len(&self) -> usize {
        self.words.len() - 2 * GUARDS
    }

    pub fn words(&self) -> &[u64] {
        &self.words[GUARDS..self.words.len() - GUARDS]
    }

    pub fn first(&self) -> *const u64 {
        self.words().as_ptr()
    }

    pub fn first_mut(&mut self) -> *mut u64 {
        self.words[GUARDS..].as_mut_ptr()
    }

    /// Holds these words, its guards untouched.
    pub fn holds(&self, words: &[u64]) -> bool {
        self.words() == words && self.guarded()
    }

    pub fn guarded(&self) -> bool {
        let (before, rest) = self.words.split_at(GUARDS);
        let after = &rest[rest.len() - GUARDS..];
        before.iter().chain(after).all(|&word| word == GUARD)
    }
}

/// The three pools.
#[derive(Clone, Debug, Default)]
pub struct Lent {
    pub nodes: List,
    pub slots: List,
    pub used: List,
}

impl Lent {
    pub fn set(&mut self, mem: &Mem) {
        self.nodes.set(&mem.nodes);
        self.slots.set(&mem.slots);
        self.used.set(&mem.used);
    }

    pub fn holds(&self, mem: &Mem) -> bool {
        self.nodes.holds(&mem.nodes) && self.slots.holds(&mem.slots) && self.used.holds(&mem.used)
    }
}

/// The three lists of scratch.
#[derive(Clone, Debug, Default)]
pub struct LentScratch {
    pub keys: List,
    pub payloads: List,
    pub places: List,
}

impl LentScratch {
    pub fn set(&mut self, scratch: &Scratch) {
        self.keys.set(&scratch.keys);
        self.payloads.set(&scratch.payloads);
        self.places.set(&scratch.places);
    }

    pub fn holds(&self, scratch: &Scratch) -> bool {
        self.keys.holds(&scratch.keys)
            && self.payloads.holds(&scratch.payloads)
            && self.places.holds(&scratch.places)
    }
}
