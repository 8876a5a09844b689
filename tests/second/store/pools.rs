//! The lent words as docs/MEMORY.md lays them out: records of 8 words, slots of 2, the map of used
//! places, and scratch. Reading here knows no rule but the ends of the lists; the rules of damage
//! are in `walk`.

use super::answers::Handle;
use super::marks::{is_marked, set_mark, words_for, Marks};
use std::ops::RangeInclusive;

/// Limits of document 01, "What the index holds".
pub const CAPACITY: RangeInclusive<u64> = 1..=16_384;
pub const RECORDS: RangeInclusive<u64> = 1..=16_384;
pub const SLOTS: RangeInclusive<u64> = 4..=131_072;
/// A path has at most this many nodes, the root being the first.
pub const MOST_PATH: usize = 24;
/// The counters elements and conflicts stop here.
pub const COUNTER_STOP: u64 = 4_294_967_295;

pub const RECORD_WORDS: usize = 8;
pub const SLOT_WORDS: usize = 2;

/// A slot's first word is kind x 2^48 + value.
pub const KIND_UNIT: u64 = 1 << 48;
pub const DATA_KIND: u64 = 1;
pub const NODE_KIND: u64 = 2;

/// The pools. The lists have any length until a call has tested them.
#[derive(Clone, Debug, Default, PartialEq, Eq)]
pub struct Mem {
    pub nodes: Vec<u64>,
    pub slots: Vec<u64>,
    pub used: Vec<u64>,
}

/// A node record; its eighth word is 0 when written and not looked at.
#[derive(Clone, Copy, Debug, PartialEq, Eq)]
pub struct Record {
    pub lo: u64,
    pub w: u64,
    pub l: u64,
    pub start: u64,
    pub elements: u64,
    pub built: u64,
    pub conflicts: u64,
}

#[derive(Clone, Copy, Debug, PartialEq, Eq)]
pub enum Slot {
    Null,
    Data { key: u64, payload: u64 },
    Node { record: u64 },
}

impl Slot {
    fn words(self) -> [u64; SLOT_WORDS] {
        match self {
            Slot::Null => [0, 0],
            Slot::Data { key, payload } => [DATA_KIND * KIND_UNIT + key, payload],
            Slot::Node { record } => [NODE_KIND * KIND_UNIT + record, 0],
        }
    }
}

impl Mem {
    pub fn zeros(records: usize, slots: usize) -> Mem {
        Mem {
            nodes: vec![0; RECORD_WORDS * records],
            slots: vec![0; SLOT_WORDS * slots],
            used: vec![0; words_for(records, slots)],
        }
    }

    /// How many whole records the list has.
    pub fn records(&self) -> u64 {
        (self.nodes.len() / RECORD_WORDS) as u64
    }

    /// How many whole slots the list has.
    pub fn slot_count(&self) -> u64 {
        (self.slots.len() / SLOT_WORDS) as u64
    }

    /// Sizes within the limits, each list as long as docs/MEMORY.md says.
    pub fn sizes_in_limits(&self) -> bool {
        let (records, slots) = (self.records(), self.slot_count());
        RECORDS.contains(&records)
            && SLOTS.contains(&slots)
            && self.nodes.len() % RECORD_WORDS == 0
            && self.slots.len() % SLOT_WORDS == 0
            && self.used.len() == words_for(records as usize, slots as usize)
    }

    /// Answer 1 of a call that is given a handle, but for its lent lists other than the pools.
    pub fn fits(&self, handle: &Handle) -> bool {
        self.sizes_in_limits()
            && self.records() == handle.records
            && self.slot_count() == handle.slots
            && CAPACITY.contains(&handle.capacity)
            && handle.count <= handle.capacity
    }

    /// The words of a record, or nothing outside the table.
    pub fn record(&self, number: u64) -> Option<Record> {
        if number >= self.records() {
            return None;
        }
        let at = number as usize * RECORD_WORDS;
        let word = |place: usize| self.nodes[at + place];
        Some(Record {
            lo: word(0),
            w: word(1),
            l: word(2),
            start: word(3),
            elements: word(4),
            built: word(5),
            conflicts: word(6),
        })
    }

    /// What a slot within the table holds, or nothing for an unknown kind.
    pub fn slot(&self, place: u64) -> Option<Slot> {
        let at = place as usize * SLOT_WORDS;
        let (first, payload) = (self.slots[at], self.slots[at + 1]);
        let (kind, value) = (first / KIND_UNIT, first % KIND_UNIT);
        match kind {
            0 => Some(Slot::Null),
            DATA_KIND => Some(Slot::Data {
                key: value,
                payload,
            }),
            NODE_KIND => Some(Slot::Node { record: value }),
            _ => None,
        }
    }

    pub fn record_used(&self, number: u64) -> bool {
        is_marked(&self.used, number)
    }

    pub fn slot_used(&self, place: u64) -> bool {
        is_marked(&self.used, self.records() + place)
    }

    /// The map as it stands, to try places in.
    pub fn marks(&self) -> Marks {
        Marks::new(self.used.clone(), self.records(), self.slot_count())
    }

    pub fn put_record(&mut self, number: u64, record: &Record) {
        let at = number as usize * RECORD_WORDS;
        self.nodes[at..at + RECORD_WORDS].copy_from_slice(&[
            record.lo,
            record.w,
            record.l,
            record.start,
            record.elements,
            record.built,
            record.conflicts,
            0,
        ]);
    }

    pub fn zero_record(&mut self, number: u64) {
        let at = number as usize * RECORD_WORDS;
        self.nodes[at..at + RECORD_WORDS].fill(0);
    }

    /// The two counters that an insert raises; the other words of the record stay.
    pub fn put_counters(&mut self, number: u64, elements: u64, conflicts: u64) {
        let at = number as usize * RECORD_WORDS;
        self.nodes[at + 4] = elements;
        self.nodes[at + 6] = conflicts;
    }

    pub fn put_slot(&mut self, place: u64, slot: Slot) {
        let at = place as usize * SLOT_WORDS;
        self.slots[at..at + SLOT_WORDS].copy_from_slice(&slot.words());
    }

    pub fn put_payload(&mut self, place: u64, payload: u64) {
        self.slots[place as usize * SLOT_WORDS + 1] = payload;
    }

    pub fn mark_record(&mut self, number: u64, used: bool) {
        set_mark(&mut self.used, number, used);
    }

    pub fn mark_slot(&mut self, place: u64, used: bool) {
        let records = self.records();
        set_mark(&mut self.used, records + place, used);
    }
}

/// Work space of a rebuild: three lists, equally long.
#[derive(Clone, Debug, Default, PartialEq, Eq)]
pub struct Scratch {
    pub keys: Vec<u64>,
    pub payloads: Vec<u64>,
    pub places: Vec<u64>,
}

impl Scratch {
    /// Equally many places in each list, and the capacity at least.
    pub fn fits(&self, handle: &Handle) -> bool {
        self.keys.len() == self.payloads.len()
            && self.keys.len() == self.places.len()
            && self.keys.len() as u64 >= handle.capacity
    }

    /// What a rebuild over m keys leaves: "the first m scratch places zero, the rest untouched".
    pub fn after_rebuild(&mut self, m: usize) {
        self.keys[..m].fill(0);
        self.payloads[..m].fill(0);
        self.places[..m].fill(0);
    }
}
