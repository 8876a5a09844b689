//! Memories to try calls on, one after another: sound stores, stores with every single field made
//! wrong, with two fields wrong, with bits turned over, mixed, misplaced and made by hand. Each
//! comes with the keys worth trying on it.

use super::crafted::{self, CHAIN_END, ODD_END};
use super::damage::{self, Change};
use super::stores::{self, Sizes, Store};
use crate::lists::{self, SHAPES};
use crate::model::KEY_END;
use crate::random::Random;
use crate::store::answers::Handle;
use crate::store::pools::{Mem, MOST_PATH};

/// A store, sound or not, with how it was made.
pub struct Memory {
    pub about: String,
    pub store: Store,
    pub keys: Vec<u64>,
}

impl Memory {
    /// One of the keys worth trying, at times changed a little.
    pub fn a_key(&self, random: &mut Random) -> u64 {
        let key = self.keys[random.below(self.keys.len() as u64) as usize];
        match random.below(8) {
            0 => (key + 1).min(KEY_END - 1),
            1 => key.saturating_sub(1),
            _ => key,
        }
    }
}

pub type Visit<'a> = dyn FnMut(&Memory, &mut Random) + 'a;

/// All of them.
pub fn each(random: &mut Random, visit: &mut Visit) {
    each_sound(random, visit);
    each_single_field(random, visit);
    each_harm(random, visit);
    each_crafted(random, visit);
    each_handle(random, visit);
}

/// The keys held, their neighbours, and the ends of the range.
pub fn worth_trying(held: &[u64], random: &mut Random) -> Vec<u64> {
    let mut keys = held.to_vec();
    keys.extend([0, KEY_END - 1, random.below(KEY_END)]);
    if let (Some(&first), Some(&last)) = (held.first(), held.last()) {
        keys.push(random.between(first, last));
    }
    keys
}

fn memory(about: String, store: Store, held: &[u64], random: &mut Random) -> Memory {
    let keys = worth_trying(held, random);
    Memory { about, store, keys }
}

/// Stores that no call has damaged, of all shapes, loaded and grown.
pub fn each_sound(random: &mut Random, visit: &mut Visit) {
    for n in 0..=40 {
        for (name, shape) in SHAPES {
            let keys = shape(n, random);
            let about = format!("sound, {name}, {n} keys");
            let store = Store::snug(&keys, 1, 4);
            visit(&memory(about, store, &keys, random), random);
            let sizes = Sizes {
                capacity: 60,
                records: 40,
                slots: 400,
            };
            let about = format!("sound, {name}, grown to about {n} keys");
            if let Some(store) = stores::grown(sizes, &keys, random) {
                visit(&memory(about, store, &keys, random), random);
            }
        }
    }
}

/// Small trees of several nodes, some of them with deleted keys.
pub fn small_tree(n: usize, random: &mut Random) -> (Store, Vec<u64>) {
    let keys = stores::crowded(n, random);
    let (records, slots) = (random.below(3) as usize, random.below(12) as usize);
    let mut store = Store::snug(&keys, records, slots);
    for &key in &keys {
        if random.one_in(6) {
            store.delete(key);
        }
    }
    (store, keys)
}

fn each_single_field(random: &mut Random, visit: &mut Visit) {
    for n in 0..=14 {
        for _ in 0..2 {
            let (store, keys) = small_tree(n, random);
            for change in damage::single_fields(&store) {
                let mut store = store.clone();
                change.make(&mut store.mem);
                let about = format!("{n} keys {keys:?}, then {change:?}");
                visit(&memory(about, store, &keys, random), random);
            }
        }
    }
}

/// Two or three fields wrong, bits, other stores' lists, nodes misplaced.
fn each_harm(random: &mut Random, visit: &mut Visit) {
    for _ in 0..120 {
        let n = random.between(1, 16) as usize;
        let (store, keys) = small_tree(n, random);
        let changes = damage::single_fields(&store);
        for _ in 0..60 {
            let (harmed, how) = harm(&store, &changes, random);
            let about = format!("{n} keys {keys:?}, then {how}");
            visit(&memory(about, harmed, &keys, random), random);
        }
    }
}

/// A store with some harm done to it, and what.
pub fn harm(store: &Store, changes: &[Change], random: &mut Random) -> (Store, String) {
    let mut harmed = store.clone();
    let mem = &mut harmed.mem;
    let how = match random.below(5) {
        0 => {
            damage::flip_bits(mem, random);
            "bits turned over".to_string()
        }
        1 => {
            *mem = damage::mixed(store, &another_like(store, random), random);
            "a list of another store".to_string()
        }
        2 | 3 => {
            let times = random.between(1, 3);
            let how: Vec<&str> = (0..times).map(|_| damage::misplace(mem, random)).collect();
            how.join(", ")
        }
        _ => {
            let any = |_| changes[random.below(changes.len() as u64) as usize];
            let some: Vec<Change> = (0..3).map(any).collect();
            some.iter().for_each(|change| change.make(mem));
            format!("{some:?}")
        }
    };
    (harmed, how)
}

/// A store of the same sizes over other keys.
fn another_like(store: &Store, random: &mut Random) -> Store {
    let sizes = Sizes {
        capacity: store.handle.capacity,
        records: store.handle.records as usize,
        slots: store.handle.slots as usize,
    };
    for n in (0..=store.handle.count as usize).rev() {
        if let Some(other) = Store::loaded(sizes, &stores::crowded(n, random)) {
            return other;
        }
    }
    store.clone()
}

/// Chains, shared nodes, odd trees, and words that could nearly be right.
fn each_crafted(random: &mut Random, visit: &mut Visit) {
    for nodes in MOST_PATH - 4..=MOST_PATH + 2 {
        for n in 0..=12 {
            let keys = below_chain_end(lists::powers_of_two(n, random));
            let store = crafted::chain_over(nodes, &keys, (2, 8), random);
            let about = format!("a chain of {nodes} nodes over {keys:?}");
            visit(&memory(about, store, &keys, random), random);
        }
    }
    for l in [4_094, 4_095, 4_096, 4_097, 4_100] {
        let store = crafted::wide(l);
        small_keys("a node as wide as may be", store, random, visit);
    }
    for _ in 0..300 {
        let store = crafted::junk(random);
        small_keys("junk", store, random, visit);
    }
    for _ in 0..4_000 {
        let store = crafted::shared_empty(random);
        small_keys("a shared empty node", store, random, visit);
        let store = crafted::odd_tree(random);
        small_keys("an odd tree", store, random, visit);
        let store = crafted::any_words(random);
        small_keys("any words", store, random, visit);
    }
}

/// The keys of a list brought below CHAIN_END.
pub fn below_chain_end(keys: Vec<u64>) -> Vec<u64> {
    let mut keys: Vec<u64> = keys.into_iter().map(|key| key % CHAIN_END).collect();
    keys.sort_unstable();
    keys.dedup();
    keys
}

fn small_keys(about: &str, store: Store, random: &mut Random, visit: &mut Visit) {
    let keys = (0..20).map(|_| random.below(ODD_END)).collect();
    let about = about.to_string();
    visit(&Memory { about, store, keys }, random);
}

/// Every field of the handle wrong, and every list too long or too short for it.
fn each_handle(random: &mut Random, visit: &mut Visit) {
    for n in [0, 1, 2, 6, 12] {
        let (store, keys) = small_tree(n, random);
        for handle in wrong_handles(&store.handle) {
            let mem = store.mem.clone();
            let about = format!("{n} keys with another handle than {:?}", store.handle);
            visit(&memory(about, Store { mem, handle }, &keys, random), random);
        }
        for mem in wrong_lengths(&store.mem) {
            let handle = store.handle;
            let about = format!("{n} keys, a list of another length");
            visit(&memory(about, Store { mem, handle }, &keys, random), random);
        }
    }
    for (capacity, records, slots) in past_limits() {
        let mem = Mem::zeros(records as usize, slots as usize);
        let handle = Handle {
            root: 0,
            count: 0,
            capacity,
            records,
            slots,
        };
        let about = "zeros of sizes at and past the limits".to_string();
        visit(&memory(about, Store { mem, handle }, &[5], random), random);
    }
}

fn wrong_handles(handle: &Handle) -> Vec<Handle> {
    let mut handles = Vec::new();
    for root in [
        0,
        1,
        2,
        handle.records - 1,
        handle.records,
        1 << 32,
        u64::MAX,
    ] {
        handles.push(Handle { root, ..*handle });
    }
    let far = [0, 1, 2, 16_384, 16_385, 1 << 32, u64::MAX];
    for value in far
        .into_iter()
        .chain([handle.capacity - 1, handle.capacity + 1])
    {
        handles.push(Handle {
            count: value,
            ..*handle
        });
        handles.push(Handle {
            capacity: value,
            ..*handle
        });
    }
    let near = |size: u64| [size - 1, size + 1, 2 * size, size + (1 << 32)];
    for records in far.into_iter().chain(near(handle.records)) {
        handles.push(Handle { records, ..*handle });
    }
    for slots in far
        .into_iter()
        .chain(near(handle.slots))
        .chain([3, 4, 131_073])
    {
        handles.push(Handle { slots, ..*handle });
    }
    handles
}

fn wrong_lengths(mem: &Mem) -> Vec<Mem> {
    let mut all = Vec::new();
    for more in [1, 2, 7, 8, 16] {
        let longer = |list: &[u64]| [list, &vec![0; more][..]].concat();
        let shorter = |list: &[u64]| list[..list.len().saturating_sub(more)].to_vec();
        all.extend([
            Mem {
                nodes: longer(&mem.nodes),
                ..mem.clone()
            },
            Mem {
                nodes: shorter(&mem.nodes),
                ..mem.clone()
            },
            Mem {
                slots: longer(&mem.slots),
                ..mem.clone()
            },
            Mem {
                slots: shorter(&mem.slots),
                ..mem.clone()
            },
            Mem {
                used: longer(&mem.used),
                ..mem.clone()
            },
            Mem {
                used: shorter(&mem.used),
                ..mem.clone()
            },
        ]);
    }
    all
}

/// Capacity, records and slots at each limit and one past it; the lists are as long as they say.
fn past_limits() -> Vec<(u64, u64, u64)> {
    let mut all = Vec::new();
    for capacity in [0, 1, 16_384, 16_385] {
        for (records, slots) in [(0, 64), (1, 3), (1, 4), (1, 64), (16_384, 4), (16_385, 4)] {
            all.push((capacity, records, slots));
        }
        all.extend([(capacity, 1, 131_072), (capacity, 1, 131_073)]);
    }
    all
}
