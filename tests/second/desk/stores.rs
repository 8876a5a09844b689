//! Sound stores to begin from, made by the second store's own calls: freshly loaded, and grown by
//! inserts and deletes.

use crate::lists::{self, Shape, SHAPES};
use crate::random::Random;
use crate::store::answers::{Handle, Inserted, DONE};
use crate::store::build;
use crate::store::calls;
use crate::store::insert;
use crate::store::marks::Marks;
use crate::store::pools::{Mem, Scratch, RECORDS, SLOTS};

/// Pools and the handle of the map in them.
#[derive(Clone, Debug, Default)]
pub struct Store {
    pub mem: Mem,
    pub handle: Handle,
}

/// Capacity, records and slots.
#[derive(Clone, Copy, Debug)]
pub struct Sizes {
    pub capacity: u64,
    pub records: usize,
    pub slots: usize,
}

/// The sizes of the session program.
pub const SESSION: Sizes = Sizes {
    capacity: 512,
    records: 256,
    slots: 2_048,
};

/// A payload that tells its key: any 64 bits, and another for each key.
pub fn payload_of(key: u64) -> u64 {
    (key ^ 0x5a5a).wrapping_mul(0x9e37_79b9_7f4a_7c15)
}

pub fn payloads_of(keys: &[u64]) -> Vec<u64> {
    keys.iter().map(|&key| payload_of(key)).collect()
}

/// Records and slots that a load of these keys takes.
pub fn need(keys: &[u64]) -> (usize, usize) {
    let mut marks = Marks::empty(*RECORDS.end(), *SLOTS.end());
    match build::plan(&mut marks, keys, &payloads_of(keys)) {
        None => panic!("the largest pools have no room"),
        Some(plan) => {
            let slots = plan.nodes.iter().map(|node| node.slots.len()).sum();
            (plan.nodes.len(), slots)
        }
    }
}

impl Store {
    pub fn loaded(sizes: Sizes, keys: &[u64]) -> Option<Store> {
        let mut mem = Mem::zeros(sizes.records, sizes.slots);
        let loaded = calls::load(sizes.capacity, keys, &payloads_of(keys), &mut mem);
        let handle = loaded.handle;
        (loaded.number == DONE).then_some(Store { mem, handle })
    }

    /// Loaded into pools that have so much more than is needed.
    pub fn snug(keys: &[u64], records: usize, slots: usize) -> Store {
        let needed = need(keys);
        let sizes = Sizes {
            capacity: keys.len() as u64 + 4,
            records: needed.0 + records,
            slots: needed.1 + slots,
        };
        Store::loaded(sizes, keys).expect("there is room")
    }

    pub fn insert(&mut self, key: u64) -> Inserted {
        let length = self.handle.capacity as usize;
        let mut scratch = Scratch {
            keys: vec![0; length],
            payloads: vec![0; length],
            places: vec![0; length],
        };
        let (mem, payload) = (&mut self.mem, payload_of(key));
        let inserted = insert::insert(self.handle, key, payload, mem, &mut scratch);
        self.handle = inserted.handle;
        inserted
    }

    pub fn delete(&mut self, key: u64) {
        self.handle = calls::delete(self.handle, key, &mut self.mem).handle;
    }

    /// The keys held, in order.
    pub fn keys(&self) -> Vec<u64> {
        let room = self.handle.count as usize;
        let (mut keys, mut payloads) = (vec![0; room], vec![0; room]);
        let end = crate::model::KEY_END - 1;
        let listed = calls::band(self.handle, 0, end, &self.mem, &mut keys, &mut payloads);
        assert!(listed.number == DONE && listed.count == self.handle.count);
        keys
    }
}

pub fn any_shape(random: &mut Random) -> (&'static str, Shape) {
    SHAPES[random.below(SHAPES.len() as u64) as usize]
}

/// A few keys that crowd in several ways, so that the tree over them has several nodes.
pub fn crowded(n: usize, random: &mut Random) -> Vec<u64> {
    let shapes: [Shape; 5] = [
        lists::powers_of_two,
        lists::around_one_key,
        lists::nested_clusters,
        lists::growing_gaps,
        lists::clusters,
    ];
    shapes[random.below(5) as usize](n, random)
}

/// A store after inserts and deletes: half of the keys are loaded, the others inserted, a few
/// deleted and some of those inserted again.
pub fn grown(sizes: Sizes, keys: &[u64], random: &mut Random) -> Option<Store> {
    let (early, late): (Vec<u64>, Vec<u64>) = keys.iter().partition(|_| random.one_in(2));
    let mut store = Store::loaded(sizes, &early)?;
    for key in shuffled(late, random) {
        store.insert(key);
    }
    for &key in keys {
        if random.one_in(5) {
            store.delete(key);
            if random.one_in(3) {
                store.insert(key);
            }
        }
    }
    Some(store)
}

pub fn shuffled<Item>(mut items: Vec<Item>, random: &mut Random) -> Vec<Item> {
    for last in (1..items.len()).rev() {
        items.swap(last, random.below(last as u64 + 1) as usize);
    }
    items
}
