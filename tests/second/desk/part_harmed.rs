//! Inserts into all memories, sound and damaged, with counters as they are and with nodes made due,
//! so that paths, two-key nodes, tidying and whole rebuilds meet every kind of harm. Runs above the
//! due node are unmarked at times, so that new nodes come to lie on the path's own slots.

use super::compared::{Both, Compared};
use super::crafted::{self, ODD_END};
use super::damage;
use super::memories::{self, Memory};
use super::part_due::{junk_in_unused, leave_few, set_counters};
use super::stores::{payload_of, Store};
use crate::model::KEY_END;
use crate::random::Random;
use crate::store::answers::*;
use crate::store::pools::Mem;

pub fn compare(compared: &mut Compared, random: &mut Random) {
    let mut both = Both::default();
    memories::each(random, &mut |memory, random| {
        for _ in 0..3 {
            one_insert(compared, &mut both, memory, random);
        }
        compared.insert(&mut both, memory.store.handle, KEY_END + random.below(2), 1);
    });
    for _ in 0..30_000 {
        odd_insert(compared, &mut both, random);
    }
    for _ in 0..6_000 {
        unmarked_above(compared, &mut both, random);
    }
    let all = [DONE, SIZE, RANGE, HELD, FULL, NO_ROOM, DAMAGE];
    compared.must_reach("insert", &all);
}

fn one_insert(compared: &mut Compared, both: &mut Both, memory: &Memory, random: &mut Random) {
    let mut store = memory.store.clone();
    let how = match random.below(4) {
        0 => "as it is",
        1 => {
            make_due(&mut store.mem, random);
            "some nodes due"
        }
        2 => {
            all_due(&mut store.mem);
            "all nodes due"
        }
        _ => {
            set_counters(&mut store.mem, random);
            "counters set"
        }
    };
    compared.about = format!("{}; {how}", memory.about);
    both.set(&store.mem);
    let key = memory.a_key(random);
    compared.insert(both, store.handle, key, payload_of(key));
}

/// Counters of a node that is due at the next insert; whatever else its record holds stays.
fn make_due(mem: &mut Mem, random: &mut Random) {
    for (number, _) in damage::nodes_of(mem) {
        if random.one_in(3) {
            mem.put_counters(number, 1 << 20, 1 << 20);
        }
    }
}

fn all_due(mem: &mut Mem) {
    for (number, _) in damage::nodes_of(mem) {
        mem.put_counters(number, 1 << 20, 1 << 20);
    }
}

/// Odd trees in which some nodes are due, in places that are partly taken, and with capacities at
/// and around the number of keys.
fn odd_insert(compared: &mut Compared, both: &mut Both, random: &mut Random) {
    let mut store = match random.below(4) {
        0 => crafted::shared_empty(random),
        _ => crafted::odd_tree(random),
    };
    make_due(&mut store.mem, random);
    widen(&mut store, random);
    let mut how = "an odd tree".to_string();
    if random.one_in(3) {
        how = format!("{how}, {}", damage::misplace(&mut store.mem, random));
    }
    if random.one_in(4) {
        how = format!("{how}, {}", leave_few(&mut store.mem, random));
    }
    if random.one_in(4) {
        unmark_some(&mut store.mem, random);
        how += ", some marks taken away";
    }
    if random.one_in(3) {
        junk_in_unused(&mut store.mem, random);
    }
    compared.about = how;
    for _ in 0..3 {
        both.set(&store.mem);
        let key = random.below(ODD_END);
        compared.insert(both, store.handle, key, payload_of(key));
    }
}

/// Room for another tree, at times.
fn widen(store: &mut Store, random: &mut Random) {
    let (records, slots) = (store.mem.records(), store.mem.slot_count());
    let (more_records, more_slots) = (random.below(8), random.below(120));
    let mut wide = Mem::zeros(
        (records + more_records) as usize,
        (slots + more_slots) as usize,
    );
    wide.nodes[..store.mem.nodes.len()].copy_from_slice(&store.mem.nodes);
    wide.slots[..store.mem.slots.len()].copy_from_slice(&store.mem.slots);
    for record in (0..records).filter(|&record| store.mem.record_used(record)) {
        wide.mark_record(record, true);
    }
    for slot in (0..slots).filter(|&slot| store.mem.slot_used(slot)) {
        wide.mark_slot(slot, true);
    }
    store.handle.records = wide.records();
    store.handle.slots = wide.slot_count();
    store.mem = wide;
}

fn unmark_some(mem: &mut Mem, random: &mut Random) {
    for slot in 0..mem.slot_count() {
        if random.one_in(6) {
            mem.mark_slot(slot, false);
        }
    }
}

/// A short chain whose runs are not marked, wholly or in part, above a tree whose top is due or
/// nothing is.
fn unmarked_above(compared: &mut Compared, both: &mut Both, random: &mut Random) {
    let nodes = random.between(1, 4) as usize;
    let n = random.between(1, 8);
    let keys: Vec<u64> = (0..n).map(|i| 10 * i + random.below(9)).collect();
    let room = (random.between(1, 8) as usize, random.below(30) as usize);
    let mut store = crafted::chain_over(nodes, &keys, room, random);
    let chain: Vec<u64> = damage::nodes_of(&store.mem)
        .iter()
        .take(nodes)
        .map(|node| node.0)
        .collect();
    let part = random.between(1, 3);
    for &number in &chain {
        let record = store.mem.record(number).expect("made here");
        for slot in record.start..record.start + record.l {
            if random.one_in(part) {
                store.mem.mark_slot(slot, false);
            }
        }
    }
    let some_due = !random.one_in(4);
    if some_due {
        let tops = damage::nodes_of(&store.mem);
        let top = tops[(nodes + random.below(2) as usize).min(tops.len() - 1)].0;
        store.mem.put_counters(top, 1 << 20, 1 << 20);
    }
    compared.about = format!("a chain of {nodes} unmarked nodes above {keys:?}");
    for _ in 0..3 {
        both.set(&store.mem);
        let key = random.below(10 * n + 10);
        compared.insert(both, store.handle, key, payload_of(key));
    }
}
