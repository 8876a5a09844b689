//! Cases for load, all over junk: sizes at and around every limit, lists with faults at every
//! place, pools too small by one record or one slot, nothing loaded, and many lists of every shape.

use super::compared::{Both, Compared};
use super::stores::{any_shape, need, payloads_of};
use crate::lists::{self, SHAPES};
use crate::model::{KEY_END, MOST_KEYS};
use crate::random::Random;
use crate::store::answers::*;
use crate::store::marks::words_for;
use crate::store::pools::{Mem, RECORD_WORDS, SLOT_WORDS};

pub fn compare(compared: &mut Compared, random: &mut Random) {
    small_sizes(compared, random);
    large_sizes(compared, random);
    one_fault(compared, random);
    two_faults(compared, random);
    too_long(compared, random);
    room(compared, random);
    nothing(compared, random);
    any_lists(compared, random);
    large_lists(compared, random);
    let all = [DONE, SIZE, RANGE, NOT_RISING, FULL, NO_ROOM];
    compared.must_reach("load", &all);
}

/// Lengths in words of the three pools.
#[derive(Clone, Copy, Debug)]
struct Lengths {
    nodes: usize,
    slots: usize,
    used: usize,
}

fn lengths_for(records: usize, slots: usize) -> Lengths {
    Lengths {
        nodes: records * RECORD_WORDS,
        slots: slots * SLOT_WORDS,
        used: words_for(records, slots),
    }
}

/// Lists of these lengths full of any words.
fn junk(lengths: Lengths, random: &mut Random) -> Mem {
    let seed = random.any();
    let words = |count: usize| {
        (0..count as u64)
            .map(|i| seed.rotate_left(i as u32) ^ i)
            .collect()
    };
    Mem {
        nodes: words(lengths.nodes),
        slots: words(lengths.slots),
        used: words(lengths.used),
    }
}

fn over_junk(records: usize, slots: usize, random: &mut Random) -> Both {
    Both::new(&junk(lengths_for(records, slots), random))
}

/// Every size at its lower end with every other, and lists a word or more too short or too long.
fn small_sizes(compared: &mut Compared, random: &mut Random) {
    for capacity in [0, 1, 2, 16_384, 16_385, u64::MAX] {
        for records in 0..=2 {
            for slots in [0, 1, 3, 4, 5, 63, 64, 65] {
                uneven_lists(compared, random, capacity, lengths_for(records, slots));
            }
        }
    }
}

fn uneven_lists(compared: &mut Compared, random: &mut Random, capacity: u64, right: Lengths) {
    for more_nodes in [0, 1, 7] {
        for more_slots in [0, 1] {
            for used in [right.used.saturating_sub(1), right.used, right.used + 1] {
                let lengths = Lengths {
                    nodes: right.nodes + more_nodes,
                    slots: right.slots + more_slots,
                    used,
                };
                compared.about = format!("{lengths:?} words of junk");
                let mut both = Both::new(&junk(lengths, random));
                compared.load(&mut both, capacity, &[], &[]);
                compared.load(&mut both, capacity, &[5, 9], &[1, 2]);
                compared.load(&mut both, capacity, &[5, 9], &[1]);
                compared.load(&mut both, capacity, &[5], &[1, 2]);
                compared.load(&mut both, capacity, &[9, 5], &[1, 2]);
            }
        }
    }
}

fn large_sizes(compared: &mut Compared, random: &mut Random) {
    for records in [16_383, 16_384, 16_385] {
        for slots in [64, 131_071, 131_072, 131_073] {
            let right = lengths_for(records, slots);
            for used in [right.used - 1, right.used, right.used + 1] {
                let lengths = Lengths { used, ..right };
                compared.about = format!("{lengths:?} words of junk");
                let mut both = Both::new(&junk(lengths, random));
                for capacity in [1, 16_384, 16_385] {
                    compared.load(&mut both, capacity, &[7], &[8]);
                }
            }
        }
    }
    for slots in [131_072, 131_073] {
        compared.load(&mut over_junk(1, slots, random), 1, &[], &[]);
    }
    for records in [16_384, 16_385] {
        compared.load(&mut over_junk(records, 64, random), 1, &[], &[]);
    }
}

/// Keys that make 2 or 4 at a place, given the key before it.
fn faults(before: Option<u64>) -> Vec<u64> {
    let mut faults = vec![KEY_END, KEY_END + 1, 1 << 63, u64::MAX];
    if let Some(before) = before {
        faults.extend([before, before.saturating_sub(1), 0]);
    }
    faults
}

fn one_fault(compared: &mut Compared, random: &mut Random) {
    compared.about = "junk".to_string();
    for n in [1, 2, 3, 4, 5, 8, 13, 20] {
        let keys = lists::uniform(n, random);
        for place in 0..n {
            for fault in faults((place > 0).then(|| keys[place - 1])) {
                let mut keys = keys.clone();
                keys[place] = fault;
                try_in_pools(compared, random, &keys);
            }
        }
    }
}

/// The first fault counts; the second may stand at the next place and break both rules there.
fn two_faults(compared: &mut Compared, random: &mut Random) {
    for n in [2, 3, 4, 6, 9] {
        let keys = lists::soundings(n, random);
        for first in 0..n - 1 {
            for fault in faults((first > 0).then(|| keys[first - 1])) {
                for second in first + 1..n {
                    let mut keys = keys.clone();
                    keys[first] = fault;
                    for next in faults(Some(keys[second - 1])) {
                        keys[second] = next;
                        try_in_pools(compared, random, &keys);
                    }
                }
            }
        }
    }
    let mut keys = lists::run(MOST_KEYS, random);
    keys[MOST_KEYS - 1] = keys[MOST_KEYS - 2];
    try_in_pools(compared, random, &keys);
    keys[MOST_KEYS - 2] = KEY_END;
    try_in_pools(compared, random, &keys);
}

/// In pools with and without room for so many keys, which a fault comes before.
fn try_in_pools(compared: &mut Compared, random: &mut Random, keys: &[u64]) {
    for (records, slots) in [(1, 4), (9, 200)] {
        let mut both = over_junk(records, slots, random);
        let capacity = keys.len() as u64;
        compared.load(&mut both, capacity, keys, &payloads_of(keys));
    }
}

/// 7 comes before 2, 4 and 8.
fn too_long(compared: &mut Compared, random: &mut Random) {
    for n in [2, 3, 5, 9] {
        for lacking in 1..n as u64 {
            let mut keys = lists::uniform(n, random);
            let capacity = n as u64 - lacking;
            for fault in [keys[0], KEY_END, keys[n - 1]] {
                keys[n - 1] = fault;
                let mut both = over_junk(9, 200, random);
                compared.load(&mut both, capacity, &keys, &payloads_of(&keys));
                let mut both = over_junk(1, 4, random);
                compared.load(&mut both, capacity, &keys, &payloads_of(&keys));
            }
        }
    }
    let keys = lists::uniform(MOST_KEYS + 1, random);
    let mut both = over_junk(1, 4, random);
    compared.load(&mut both, MOST_KEYS as u64, &keys, &payloads_of(&keys));
}

/// Exactly enough records and slots, one less and one more of each.
fn room(compared: &mut Compared, random: &mut Random) {
    for n in 0..=40 {
        for (name, shape) in SHAPES {
            let keys = shape(n, random);
            let (records, slots) = need(&keys);
            compared.about = format!("junk, {name}, {n} keys need {records} and {slots}");
            for (records, slots) in [
                (records, slots),
                (records - 1, slots),
                (records, slots - 1),
                (records + 1, slots + 1),
            ] {
                let mut both = over_junk(records, slots, random);
                let capacity = (n as u64).max(1) + random.below(2);
                compared.load(&mut both, capacity, &keys, &payloads_of(&keys));
            }
        }
    }
}

/// A load of nothing takes 64 slots.
fn nothing(compared: &mut Compared, random: &mut Random) {
    for slots in 4..=70 {
        for records in 1..=2 {
            compared.about = format!("junk, {records} records and {slots} slots");
            compared.load(&mut over_junk(records, slots, random), 1, &[], &[]);
            compared.load(&mut over_junk(records, slots, random), 1, &[0], &[0]);
            let far = [0, KEY_END - 1];
            compared.load(&mut over_junk(records, slots, random), 2, &far, &far);
        }
    }
}

/// One load after another into the same pools.
fn any_lists(compared: &mut Compared, random: &mut Random) {
    for _ in 0..250 {
        let (records, slots) = (random.between(1, 60), random.between(4, 400));
        let mut both = over_junk(records as usize, slots as usize, random);
        compared.about = format!("{records} records and {slots} slots loaded before");
        for _ in 0..20 {
            let n = random.below(60) as usize;
            let keys = any_shape(random).1(n, random);
            let capacity = random.between(n as u64 / 2, n as u64 + 40);
            compared.load(&mut both, capacity, &keys, &payloads_of(&keys));
        }
    }
    for _ in 0..100 {
        let n = random.between(100, 1_500) as usize;
        let (name, shape) = any_shape(random);
        let keys = shape(n, random);
        let (records, slots) = need(&keys);
        compared.about = format!("junk, {name}, {n} keys in {records} records and {slots} slots");
        let mut both = over_junk(records, slots, random);
        compared.load(&mut both, 2_000, &keys, &payloads_of(&keys));
    }
}

fn large_lists(compared: &mut Compared, random: &mut Random) {
    let shapes: [lists::Shape; 3] = [lists::uniform, lists::soundings, lists::crowded_soundings];
    for shape in shapes {
        for n in [2_047, 2_048, 2_049, MOST_KEYS] {
            let keys = shape(n, random);
            let (records, slots) = need(&keys);
            compared.about = format!("junk, {n} keys in {records} records and {slots} slots");
            for (records, slots) in [(records, slots), (records, slots - 1)] {
                let mut both = over_junk(records, slots, random);
                compared.load(&mut both, 16_384, &keys, &payloads_of(&keys));
            }
        }
    }
}
