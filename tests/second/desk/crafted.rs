//! Stores made by hand, node by node: chains as long as a path may be and longer, empty nodes that
//! are shared, and odd trees, in which every rule of a rebuild holds though no store would build
//! them. Counters, marks and handles are as wanted.

use super::stores::{payload_of, payloads_of, Store};
use crate::model::{first_key_at, KEY_END};
use crate::random::Random;
use crate::store::answers::Handle;
use crate::store::build;
use crate::store::pools::{Mem, Record, Slot};

/// Pools that are filled from the lowest record and slot on.
pub struct Craft {
    pub mem: Mem,
    pub keys: Vec<u64>,
    next_record: u64,
    next_slot: u64,
}

impl Craft {
    pub fn new(records: usize, slots: usize) -> Craft {
        Craft {
            mem: Mem::zeros(records, slots),
            keys: Vec::new(),
            next_record: 0,
            next_slot: 0,
        }
    }

    /// An empty node, marked, in the next places; nothing where the pools end.
    pub fn node(&mut self, lo: u64, w: u64, l: u64) -> Option<u64> {
        let (number, start) = (self.next_record, self.next_slot);
        if number >= self.mem.records() || start + l > self.mem.slot_count() {
            return None;
        }
        self.next_record += 1;
        self.next_slot += l;
        let record = Record {
            lo,
            w,
            l,
            start,
            elements: 0,
            built: 0,
            conflicts: 0,
        };
        self.mem.put_record(number, &record);
        self.mem.mark_record(number, true);
        for place in start..start + l {
            self.mem.mark_slot(place, true);
        }
        Some(number)
    }

    pub fn place(&self, number: u64, slot: u64) -> u64 {
        self.mem.record(number).expect("a node made here").start + slot
    }

    pub fn hang(&mut self, number: u64, slot: u64, record: u64) {
        let place = self.place(number, slot);
        self.mem.put_slot(place, Slot::Node { record });
    }

    pub fn data(&mut self, number: u64, slot: u64, key: u64) {
        let (place, payload) = (self.place(number, slot), payload_of(key));
        self.mem.put_slot(place, Slot::Data { key, payload });
        self.keys.push(key);
    }

    /// A tree built over keys in the lowest unused places.
    pub fn tree(&mut self, keys: &[u64]) -> Option<u64> {
        let plan = build::plan(&mut self.mem.marks(), keys, &payloads_of(keys))?;
        plan.store(&mut self.mem);
        self.keys.extend(keys);
        Some(plan.top())
    }

    pub fn store(self, root: u64, count: u64, capacity: u64) -> Store {
        let handle = Handle {
            root,
            count,
            capacity,
            records: self.mem.records(),
            slots: self.mem.slot_count(),
        };
        Store {
            mem: self.mem,
            handle,
        }
    }
}

/// In a node over all keys with this many slots at most, keys below this go to slot 1.
pub const CHAIN_SLOTS: u64 = 8;
pub const CHAIN_END: u64 = KEY_END / CHAIN_SLOTS;

/// A chain of nodes over all keys, each the child at slot 1 of the one before. Gives their records.
pub fn chain(craft: &mut Craft, nodes: usize, random: &mut Random) -> Option<Vec<u64>> {
    let mut records: Vec<u64> = Vec::new();
    for _ in 0..nodes {
        let next = craft.node(0, KEY_END, random.between(4, CHAIN_SLOTS))?;
        if let Some(&last) = records.last() {
            craft.hang(last, 1, next);
        }
        records.push(next);
    }
    Some(records)
}

/// A chain with a tree over these keys below it; all of them are below CHAIN_END.
pub fn chain_over(nodes: usize, keys: &[u64], spare: (usize, usize), random: &mut Random) -> Store {
    let (records, slots) = super::stores::need(keys);
    let chain_slots = CHAIN_SLOTS as usize * nodes;
    let mut craft = Craft::new(nodes + records + spare.0, chain_slots + slots + spare.1);
    let chain = chain(&mut craft, nodes, random).expect("room for the chain");
    let mut root = craft.tree(keys).expect("room for the tree");
    if let (Some(&first), Some(&last)) = (chain.first(), chain.last()) {
        craft.hang(last, 1, root);
        root = first;
    }
    let count = keys.len() as u64;
    craft.store(root, count, count + 3)
}

/// A node of so many slots, which may be too many, over the keys below ODD_END.
pub fn wide(l: u64) -> Store {
    let mut craft = Craft::new(3, 4_200);
    let root = craft.node(0, ODD_END, l).expect("room");
    for key in (0..ODD_END).step_by(3) {
        let slot = crate::model::slot_of(key, 0, ODD_END, l);
        craft.data(root, slot, key);
    }
    let count = craft.keys.len() as u64;
    craft.store(root, count, count + 1)
}

/// A node, below none to two others, of which some slots lead to one empty node: for each of them
/// a walk reads one node more. There are about as many records as nodes read.
pub fn shared_empty(random: &mut Random) -> Store {
    let above = random.below(3) as usize;
    let l = random.between(4, 9);
    let many = random.between(1, l);
    let records = (many + random.below(4)).max(above as u64 + 2);
    let mut craft = Craft::new(records as usize, 60);
    let chain = chain(&mut craft, above, random).expect("room");
    let hub = craft.node(10, 90, l).expect("room");
    let empty = craft
        .node(random.below(100), random.between(1, 50), 4)
        .expect("room");
    if let Some(&last) = chain.last() {
        craft.hang(last, 1, hub);
    }
    for slot in 0..l {
        if slot < many {
            craft.hang(hub, slot, empty);
        } else {
            let key = first_key_at(slot, 10, 90, l);
            craft.data(hub, slot, key);
        }
    }
    let root = chain.first().copied().unwrap_or(hub);
    let count = l - many;
    craft.store(root, count, count + 1 + random.below(3))
}

/// A tree of any models whose keys rise and stand in the right slots of their nodes, though keys
/// and nodes may hang where the models above would not look for them.
pub fn odd_tree(random: &mut Random) -> Store {
    let (records, slots) = (random.between(1, 9), random.between(12, 70));
    let mut craft = Craft::new(records as usize, slots as usize);
    let mut growing = Growing {
        craft: &mut craft,
        random,
        last: None,
        empty: None,
    };
    let root = growing.node(1).expect("room for one node");
    let keys = craft.keys.len() as u64;
    let capacity = (keys + random.below(4)).max(1);
    let count = random.below(capacity + 1);
    craft.store(root, count, capacity)
}

/// Keys of odd trees and the inserts tried on them are below this.
pub const ODD_END: u64 = 160;

struct Growing<'a> {
    craft: &'a mut Craft,
    random: &'a mut Random,
    last: Option<u64>,
    empty: Option<u64>,
}

impl Growing<'_> {
    fn node(&mut self, depth: u64) -> Option<u64> {
        let (lo, w) = self.model();
        let l = self.random.between(4, 8);
        let number = self.craft.node(lo, w, l)?;
        for slot in 0..l {
            match self.random.below(6) {
                0 | 1 => self.key(number, slot),
                2 if depth < 5 => self.child(number, slot, depth),
                _ => {}
            }
        }
        Some(number)
    }

    /// Mostly near the last key, so that keys can still rise below it.
    fn model(&mut self) -> (u64, u64) {
        let last = self.last.unwrap_or(0);
        let lo = match self.random.below(4) {
            0 => self.random.below(ODD_END),
            _ => last + self.random.below(12),
        };
        (lo, self.random.between(1, 60))
    }

    /// The lowest keys above the last one that belong in the slot, if there are any.
    fn key(&mut self, number: u64, slot: u64) {
        let record = self.craft.mem.record(number).expect("made here");
        let (lo, w, l) = (record.lo, record.w, record.l);
        let least = self.last.map_or(0, |last| last + 1);
        let first = first_key_at(slot, lo, w, l).max(least);
        let end = first_key_at(slot + 1, lo, w, l).min(2 * ODD_END);
        if slot + 1 < l && first >= end {
            return;
        }
        let key = first + self.random.below(3);
        if crate::model::slot_of(key, lo, w, l) == slot {
            self.craft.data(number, slot, key);
            self.last = Some(key);
        }
    }

    fn child(&mut self, number: u64, slot: u64, depth: u64) {
        let shared = self.empty.filter(|_| self.random.one_in(4));
        let child = match shared {
            Some(empty) => Some(empty),
            None => self.node(depth + 1),
        };
        if let Some(child) = child {
            self.craft.hang(number, slot, child);
            let start = self.craft.place(child, 0);
            let l = self.craft.mem.record(child).expect("made here").l;
            let bare =
                (start..start + l).all(|place| self.craft.mem.slot(place) == Some(Slot::Null));
            if bare {
                self.empty = Some(child);
            }
        }
    }
}

/// Words of any bits under a handle that fits them.
pub fn junk(random: &mut Random) -> Store {
    let (records, slots) = (random.between(1, 6), random.between(4, 40));
    let mut mem = Mem::zeros(records as usize, slots as usize);
    for list in [&mut mem.nodes, &mut mem.slots, &mut mem.used] {
        list.fill_with(|| random.of_bits(63) << random.below(2));
    }
    let handle = Handle {
        root: random.below(records),
        count: 3,
        capacity: 9,
        records,
        slots,
    };
    Store { mem, handle }
}

/// Records and slots of any values that could nearly be right: runs may overlap, marks may lack,
/// but most keys belong in a slot of some node.
pub fn any_words(random: &mut Random) -> Store {
    let (records, slots) = (random.between(1, 6), random.between(8, 40));
    let mut mem = Mem::zeros(records as usize, slots as usize);
    for number in 0..records {
        mem.put_record(number, &any_record(slots, random));
        mem.mark_record(number, !random.one_in(8));
    }
    for place in 0..slots {
        let number = random.below(records);
        let record = mem.record(number).expect("made here");
        let slot = match random.below(5) {
            0 => Slot::Node {
                record: random.below(records + 1),
            },
            1 => any_data(&record, place, random),
            _ => Slot::Null,
        };
        mem.put_slot(place, slot);
        mem.mark_slot(place, !random.one_in(8));
    }
    let capacity = random.between(1, 30);
    let handle = Handle {
        root: random.below(records),
        count: random.below(capacity + 1),
        capacity,
        records,
        slots,
    };
    Store { mem, handle }
}

fn any_record(slots: u64, random: &mut Random) -> Record {
    let l = random.between(4, 7);
    Record {
        lo: random.below(60),
        w: random.between(1, 60),
        l,
        start: random.below(slots - l + 2),
        elements: random.below(200),
        built: random.below(80),
        conflicts: random.below(30),
    }
}

/// A key that belongs there if the slot is one of this node's.
fn any_data(record: &Record, place: u64, random: &mut Random) -> Slot {
    let slot = place.wrapping_sub(record.start) % record.l;
    let key = first_key_at(slot, record.lo, record.w, record.l) % KEY_END + random.below(2);
    Slot::Data {
        key,
        payload: random.any(),
    }
}
