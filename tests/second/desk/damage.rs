//! Harm done to a store: every single field of every node and slot made wrong in every way that
//! matters, any bits turned over, lists of several stores mixed, and nodes hung where they do not
//! belong.

use super::stores::Store;
use crate::model::KEY_END;
use crate::random::Random;
use crate::store::pools::{Mem, Record, Slot, KIND_UNIT, NODE_KIND, RECORD_WORDS, SLOT_WORDS};

#[derive(Clone, Copy, Debug)]
pub enum In {
    Nodes,
    Slots,
    Used,
}

/// One word that is to hold another value.
#[derive(Clone, Copy, Debug)]
pub struct Change {
    pub list: In,
    pub word: usize,
    pub value: u64,
}

impl Change {
    pub fn make(&self, mem: &mut Mem) {
        match self.list {
            In::Nodes => mem.nodes[self.word] = self.value,
            In::Slots => mem.slots[self.word] = self.value,
            In::Used => mem.used[self.word] = self.value,
        }
    }
}

pub fn word(mem: &Mem, list: In, word: usize) -> u64 {
    match list {
        In::Nodes => mem.nodes[word],
        In::Slots => mem.slots[word],
        In::Used => mem.used[word],
    }
}

/// The records of the tree, by their marks.
pub fn nodes_of(mem: &Mem) -> Vec<(u64, Record)> {
    let marked = (0..mem.records()).filter(|&number| mem.record_used(number));
    marked
        .filter_map(|number| mem.record(number).map(|record| (number, record)))
        .collect()
}

/// The places of all slots of a sound store's nodes.
pub fn slots_of(mem: &Mem) -> Vec<u64> {
    let runs = nodes_of(mem).into_iter();
    runs.flat_map(|(_, record)| record.start..record.start + record.l)
        .collect()
}

/// Every single field of a sound store made wrong, and a few changes that are no damage.
pub fn single_fields(store: &Store) -> Vec<Change> {
    let mem = &store.mem;
    let mut changes = Vec::new();
    for (number, record) in nodes_of(mem) {
        for (field, values) in record_values(mem, &record) {
            changes.extend(values.into_iter().map(|value| Change {
                list: In::Nodes,
                word: number as usize * RECORD_WORDS + field,
                value,
            }));
        }
    }
    for place in slots_of(mem) {
        let values = slot_values(mem, place).into_iter();
        changes.extend(values.map(|(word, value)| Change {
            list: In::Slots,
            word: place as usize * SLOT_WORDS + word,
            value,
        }));
    }
    changes.extend((0..64 * mem.used.len()).map(|place| flipped_mark(mem, place)));
    changes
}

fn flipped_mark(mem: &Mem, place: usize) -> Change {
    let word = place / 64;
    Change {
        list: In::Used,
        word,
        value: mem.used[word] ^ 1 << (place % 64),
    }
}

/// The number whose sum with this one is that in 64 bits, though not in whole numbers.
fn wrapping_to(sum: u64, number: u64) -> u64 {
    sum.wrapping_sub(number)
}

/// Values for lo, W, L, start and the words behind them: within the rules, at their ends, past
/// them, and so large that a sum would wrap round.
fn record_values(mem: &Mem, record: &Record) -> Vec<(usize, Vec<u64>)> {
    let Record {
        lo, w, l, start, ..
    } = *record;
    let slots = mem.slot_count();
    let near = |value: u64| [value.wrapping_sub(1), value.wrapping_add(1)];
    let large = [KEY_END - 1, KEY_END, 1 << 63, u64::MAX];
    let mut los = vec![0, KEY_END - w, KEY_END - w + 1, wrapping_to(0, w)];
    let mut ws = vec![0, 1, KEY_END - lo, KEY_END - lo + 1, wrapping_to(1, lo)];
    let mut ls = vec![0, 1, 2, 3, 4, 5, 4_096, 4_097, (1 << 32) + l];
    let mut starts = vec![0, slots - l, slots - l + 1, slots, (1 << 32) + start];
    ls.extend([slots - start, slots - start + 1, wrapping_to(4, start)]);
    starts.push(wrapping_to(0, l));
    for (values, value) in [
        (&mut los, lo),
        (&mut ws, w),
        (&mut ls, l),
        (&mut starts, start),
    ] {
        values.extend(near(value));
        values.extend(large);
    }
    let behind = (4..RECORD_WORDS).map(|field| (field, vec![0, 1, u64::MAX]));
    let mut all = vec![(0, los), (1, ws), (2, ls), (3, starts)];
    all.extend(behind);
    all
}

/// Other kinds, other keys and children, and a payload where none belongs.
fn slot_values(mem: &Mem, place: u64) -> Vec<(usize, u64)> {
    let at = place as usize * SLOT_WORDS;
    let (first, second) = (mem.slots[at], mem.slots[at + 1]);
    let value = first % KIND_UNIT;
    let kinds = [0, 1, 2, 3, 4, 0x7fff, 0x8001, 0xffff];
    let mut values: Vec<(usize, u64)> = kinds.map(|kind| (0, kind * KIND_UNIT + value)).to_vec();
    let mut other_values = vec![0, KEY_END - 1, value ^ 1, (value + 2) % KIND_UNIT];
    if first / KIND_UNIT == NODE_KIND {
        other_values.extend(0..mem.records() + 2);
        other_values.push((1 << 32) + value);
    }
    let kind = first / KIND_UNIT;
    values.extend(
        other_values
            .into_iter()
            .map(|value| (0, kind * KIND_UNIT + value)),
    );
    values.extend([(0, NODE_KIND * KIND_UNIT), (1, !second), (1, 1)]);
    values
}

/// Turns over a few bits anywhere.
pub fn flip_bits(mem: &mut Mem, random: &mut Random) {
    for _ in 0..random.between(1, 4) {
        let list = match random.below(3) {
            0 => &mut mem.nodes,
            1 => &mut mem.slots,
            _ => &mut mem.used,
        };
        let word = random.below(list.len() as u64) as usize;
        list[word] ^= 1 << random.below(64);
    }
}

/// The store's slots, or its records, or its map taken from another of the same sizes.
pub fn mixed(store: &Store, other: &Store, random: &mut Random) -> Mem {
    let mut mem = store.mem.clone();
    match random.below(3) {
        0 => mem.nodes.clone_from(&other.mem.nodes),
        1 => mem.slots.clone_from(&other.mem.slots),
        _ => mem.used.clone_from(&other.mem.used),
    }
    mem
}

/// The records whose runs lie within the slots.
fn nodes_within(mem: &Mem) -> Vec<(u64, Record)> {
    let mut nodes = nodes_of(mem);
    let slots = mem.slot_count();
    nodes.retain(|(_, record)| (4..=slots).contains(&record.l) && record.start <= slots - record.l);
    nodes
}

/// A node hung where it does not belong, or a run laid over another.
pub fn misplace(mem: &mut Mem, random: &mut Random) -> &'static str {
    let nodes = nodes_within(mem);
    if nodes.is_empty() {
        return "no node to misplace";
    }
    let any_node = |random: &mut Random| nodes[random.below(nodes.len() as u64) as usize];
    let (number, record) = any_node(random);
    let place = record.start + random.below(record.l);
    match random.below(7) {
        0 => {
            mem.put_slot(place, Slot::Node { record: number });
            "a node its own child"
        }
        1 => {
            let child = any_node(random).0;
            mem.put_slot(place, Slot::Node { record: child });
            "a node below another, and perhaps twice"
        }
        2 => {
            move_child(mem, &record, random);
            "a child moved to another slot"
        }
        3 => {
            let (_, other) = any_node(random);
            mem.put_record(
                number,
                &Record {
                    start: other.start,
                    ..record
                },
            );
            "two nodes at one start"
        }
        4 => {
            let by = random.below(2 * record.l).wrapping_sub(record.l);
            let start = record.start.wrapping_add(by);
            mem.put_record(number, &Record { start, ..record });
            "a run shifted over others"
        }
        5 => {
            let (other, twin) = any_node(random);
            mem.put_record(number, &twin);
            mem.mark_record(other, true);
            "a record copied over another"
        }
        _ => {
            let (_, other) = any_node(random);
            let there = other.start + random.below(other.l);
            swap_slots(mem, place, there);
            "two slots swapped"
        }
    }
}

fn move_child(mem: &mut Mem, record: &Record, random: &mut Random) {
    let run = record.start..record.start + record.l;
    let child = run
        .clone()
        .find(|&place| matches!(mem.slot(place), Some(Slot::Node { .. })));
    if let Some(place) = child {
        swap_slots(mem, place, run.start + random.below(record.l));
    }
}

fn swap_slots(mem: &mut Mem, first: u64, second: u64) {
    for word in 0..SLOT_WORDS {
        let at = |place: u64| place as usize * SLOT_WORDS + word;
        mem.slots.swap(at(first), at(second));
    }
}
