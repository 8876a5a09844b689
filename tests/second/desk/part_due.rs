//! Inserts where a node is due or nearly so: counters at and around every bound, at and near their
//! stop, and of values no store would write; pools with so few places left that the two-key node or
//! the rebuild just fits or just does not, as their marks have it; junk in the unused places.

use super::compared::{Both, Compared};
use super::damage;
use super::stores::{self, payload_of, Sizes, Store};
use crate::model::KEY_END;
use crate::random::Random;
use crate::store::answers::*;
use crate::store::pools::{Mem, Record, COUNTER_STOP, RECORD_WORDS, SLOT_WORDS};

pub fn compare(compared: &mut Compared, random: &mut Random) {
    for _ in 0..900 {
        let n = random.between(0, 40) as usize;
        let keys = stores::crowded(n, random);
        let Some(store) = roomy(&keys, random) else {
            continue;
        };
        for _ in 0..70 {
            one_insert(compared, &store, &keys, random);
        }
    }
    compared.must_reach("insert", &[DONE, HELD, FULL, NO_ROOM]);
    for (conflict, tidying) in [(0, 0), (1, 0), (0, 1), (1, 1), (0, 2), (1, 2)] {
        if compared.times_tidying(conflict, tidying) == 0 {
            compared.wrong("a kind of tidying was not reached");
        }
    }
}

/// Grown in pools with room for another tree.
fn roomy(keys: &[u64], random: &mut Random) -> Option<Store> {
    let (records, slots) = stores::need(keys);
    let sizes = Sizes {
        capacity: keys.len() as u64 + random.between(1, 8),
        records: 3 * records + 6,
        slots: 3 * slots + 80,
    };
    stores::grown(sizes, keys, random)
}

fn one_insert(compared: &mut Compared, store: &Store, keys: &[u64], random: &mut Random) {
    let mut store = store.clone();
    set_counters(&mut store.mem, random);
    let left = if random.one_in(2) {
        leave_few(&mut store.mem, random)
    } else {
        "all left".to_string()
    };
    if random.one_in(3) {
        junk_in_unused(&mut store.mem, random);
    }
    if random.one_in(6) {
        store.handle.count = random.below(store.handle.capacity + 1);
    }
    compared.about = format!("{} keys {keys:?}, counters set, {left}", keys.len());
    let key = some_key(keys, random);
    let mut both = Both::new(&store.mem);
    compared.insert(&mut both, store.handle, key, payload_of(key));
}

fn some_key(keys: &[u64], random: &mut Random) -> u64 {
    if keys.is_empty() || random.one_in(6) {
        return random.below(KEY_END);
    }
    let key = keys[random.below(keys.len() as u64) as usize];
    match random.below(3) {
        0 => (key + 1 + random.of_bits(16)).min(KEY_END - 1),
        1 => key.saturating_sub(1 + random.of_bits(16)),
        _ => key,
    }
}

/// Sets the three counters of some nodes.
pub fn set_counters(mem: &mut Mem, random: &mut Random) {
    for (number, record) in damage::nodes_of(mem) {
        if random.one_in(2) {
            let (elements, built, conflicts) = some_counters(random);
            let record = Record {
                elements,
                built,
                conflicts,
                ..record
            };
            mem.put_record(number, &record);
        }
    }
}

/// Around each bound of "due", around the stop, and of any size.
fn some_counters(random: &mut Random) -> (u64, u64, u64) {
    let near = |value: u64, random: &mut Random| (value + random.below(4)).saturating_sub(2);
    match random.below(8) {
        // around elements >= 64 and elements >= 2 x built
        0 | 1 => (near(63, random), near(32, random), random.between(2, 9)),
        // around 10 x conflicts >= elements - built
        2 | 3 => {
            let (elements, built) = (random.between(64, 200), random.below(80));
            let bound = (elements + 1).saturating_sub(built).div_ceil(10);
            (elements, built, near(bound, random))
        }
        // plainly due
        4 => (
            random.between(63, 300),
            random.below(30),
            random.between(30, 300),
        ),
        5 => {
            let stop = COUNTER_STOP;
            let built = [0, stop / 2, stop / 2 + 1, stop][random.below(4) as usize];
            (near(stop, random), built, near(stop, random))
        }
        6 => {
            let tenth = COUNTER_STOP.div_ceil(10);
            (
                near(COUNTER_STOP, random),
                random.below(12),
                near(tenth, random),
            )
        }
        _ => [(); 3].map(|()| any_counter(random)).into(),
    }
}

fn any_counter(random: &mut Random) -> u64 {
    let values = [
        0,
        1,
        63,
        64,
        1 << 31,
        1 << 32,
        (1 << 32) + 64,
        1 << 63,
        u64::MAX - 1,
        u64::MAX,
    ];
    match random.below(2) {
        0 => values[random.below(10) as usize],
        _ => random.of_bits(40),
    }
}

/// Marks most unused places, so that few records and one or two short runs are left.
pub fn leave_few(mem: &mut Mem, random: &mut Random) -> String {
    let records: Vec<u64> = (0..mem.records())
        .filter(|&r| !mem.record_used(r))
        .collect();
    let left = random.below(8);
    let records = stores::shuffled(records, random);
    for &record in records.iter().skip(left as usize) {
        mem.mark_record(record, true);
    }
    let slots: Vec<u64> = (0..mem.slot_count())
        .filter(|&q| !mem.slot_used(q))
        .collect();
    let runs = [0, 1].map(|_| some_run(slots.len(), random));
    for (at, &slot) in slots.iter().enumerate() {
        if !runs.iter().any(|run| run.contains(&at)) {
            mem.mark_slot(slot, true);
        }
    }
    format!("{left} records and unused slots {runs:?} left")
}

/// A short run, or one as long as a node of some keys, give or take one.
fn some_run(slots: usize, random: &mut Random) -> std::ops::Range<usize> {
    let start = random.below(slots as u64 + 1) as usize;
    let length = match random.below(3) {
        0 => random.below(7),
        1 => 2 * random.below(40) + random.below(3),
        _ => random.below(160),
    };
    start..start + length as usize
}

/// Any words in the records and slots that are not marked.
pub fn junk_in_unused(mem: &mut Mem, random: &mut Random) {
    for record in 0..mem.records() {
        if !mem.record_used(record) {
            let at = record as usize * RECORD_WORDS;
            mem.nodes[at..at + RECORD_WORDS].fill_with(|| random.any());
        }
    }
    for slot in 0..mem.slot_count() {
        if !mem.slot_used(slot) {
            let at = slot as usize * SLOT_WORDS;
            mem.slots[at..at + SLOT_WORDS].fill_with(|| random.any());
        }
    }
}
