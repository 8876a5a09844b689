//! Inserts into sound stores: long streams with deletes between them, in pools from plentiful to
//! tight, and scratch of every length. Deletes are the second store's own, so that only insert is
//! asked of the library.

use super::compared::{Both, Compared};
use super::stores::{self, payload_of, Sizes, Store, SESSION};
use crate::lists;
use crate::model::KEY_END;
use crate::random::Random;
use crate::store::answers::*;
use std::collections::BTreeSet;

const ALL_SIZES: [(u64, usize, usize); 14] = [
    (512, 256, 2_048),
    (300, 200, 1_400),
    (200, 200, 1_800),
    (200, 60, 900),
    (100, 120, 900),
    (100, 60, 500),
    (100, 100, 260),
    (70, 16, 600),
    (60, 30, 260),
    (40, 40, 90),
    (16, 6, 64),
    (8, 3, 16),
    (2, 2, 8),
    (1, 1, 4),
];

pub fn compare(compared: &mut Compared, random: &mut Random) {
    let mut later = 0;
    for (capacity, records, slots) in ALL_SIZES {
        for _ in 0..24 {
            let sizes = Sizes {
                capacity,
                records,
                slots,
            };
            later += stream(compared, sizes, random);
        }
    }
    session_streams(compared, random);
    large(compared, random);
    scratch_lengths(compared, random);
    compared.must_reach("insert", &[DONE, SIZE, RANGE, HELD, FULL, NO_ROOM]);
    println!("  tidying done in a store where one was put off before: {later}");
    if later == 0 {
        compared.wrong("no tidying was done after another had been put off");
    }
}

/// Inserts and deletes drawn from one list of keys. Gives how often a tidying was done after
/// another had been put off.
fn stream(compared: &mut Compared, sizes: Sizes, random: &mut Random) -> u64 {
    let n = random.between(sizes.capacity / 2 + 1, sizes.capacity * 2 + 2) as usize;
    let pool = if random.one_in(3) {
        stores::any_shape(random).1(n, random)
    } else {
        stores::crowded(n, random)
    };
    let part = random.between(1, 12);
    let first: Vec<u64> = pool
        .iter()
        .copied()
        .filter(|_| random.one_in(part))
        .collect();
    let Some(store) = Store::loaded(sizes, &first) else {
        return 0;
    };
    compared.about = format!("{sizes:?}, stream over {n} keys");
    let deletes = random.between(2, 6);
    let mut course = Course::new(store);
    for _ in 0..3 {
        for _ in 0..2 * n + 10 {
            let key = pool[random.below(n as u64) as usize];
            if !course.held.contains(&key) || random.one_in(20) {
                course.insert(compared, key);
            } else if random.one_in(deletes) {
                course.delete(key);
            }
        }
        course.delete_most(random);
    }
    course.later
}

/// A store that goes on from call to call.
struct Course {
    both: Both,
    handle: Handle,
    held: BTreeSet<u64>,
    put_off: bool,
    later: u64,
}

impl Course {
    fn new(store: Store) -> Course {
        Course {
            both: Both::new(&store.mem),
            handle: store.handle,
            held: store.keys().into_iter().collect(),
            put_off: false,
            later: 0,
        }
    }

    fn insert(&mut self, compared: &mut Compared, key: u64) -> Inserted {
        let answer = compared.insert(&mut self.both, self.handle, key, payload_of(key));
        self.handle = answer.handle;
        if answer.number == DONE {
            self.held.insert(key);
        }
        self.put_off |= answer.tidying == PUT_OFF;
        if answer.tidying == TIDIED && self.put_off {
            self.put_off = false;
            self.later += 1;
        }
        answer
    }

    fn delete(&mut self, key: u64) {
        self.delete_all(&[key]);
    }

    /// Afterwards a tree over what is left needs less room.
    fn delete_most(&mut self, random: &mut Random) {
        let held = self.held.iter().copied();
        let most: Vec<u64> = held.filter(|_| !random.one_in(5)).collect();
        self.delete_all(&most);
    }

    fn delete_all(&mut self, keys: &[u64]) {
        let mut store = Store {
            mem: self.both.ours.clone(),
            handle: self.handle,
        };
        for key in keys {
            store.delete(*key);
            self.held.remove(key);
        }
        self.both.set(&store.mem);
        self.handle = store.handle;
    }
}

/// The session's sizes from an empty load, as its program has them, with soundings of a survey.
fn session_streams(compared: &mut Compared, random: &mut Random) {
    let shapes: [lists::Shape; 3] = [lists::soundings, lists::crowded_soundings, lists::uniform];
    for shape in shapes {
        for _ in 0..6 {
            compared.about = "the session's sizes".to_string();
            let mut course = Course::new(Store::loaded(SESSION, &[]).expect("room for nothing"));
            for key in stores::shuffled(shape(560, random), random) {
                course.insert(compared, key);
                if random.one_in(12) {
                    course.delete(key);
                }
            }
        }
    }
}

/// A node built over 2,047 keys has 4,094 slots and may be due; one over 2,048 keys is never.
fn large(compared: &mut Compared, random: &mut Random) {
    for n in [2_046, 2_047, 2_048, 3_000] {
        let keys = lists::uniform(n, random);
        let sizes = Sizes {
            capacity: 4_000,
            records: 4_000,
            slots: 24_000,
        };
        let mut store = Store::loaded(sizes, &keys).expect("there is room");
        store
            .mem
            .put_counters(store.handle.root, 2 * n as u64 - 1, 2 * n as u64);
        compared.about = format!("{n} keys, the root with as many conflicts");
        let mut course = Course::new(store);
        for _ in 0..3 {
            course.insert(compared, random.below(KEY_END));
        }
    }
}

/// Scratch unequal, too short, and longer than needed; 1 comes before all others.
fn scratch_lengths(compared: &mut Compared, random: &mut Random) {
    for _ in 0..300 {
        let n = random.between(1, 12) as usize;
        let keys = stores::crowded(n, random);
        let mut store = Store::snug(&keys, 6, 40);
        store.mem.put_counters(store.handle.root, 100, 100);
        compared.about = format!("{n} keys, the root due");
        let mut both = Both::new(&store.mem);
        let capacity = store.handle.capacity as usize;
        for lengths in lengths_around(capacity) {
            both.set(&store.mem);
            let key = match random.below(4) {
                0 => keys[random.below(n as u64) as usize],
                1 => KEY_END + random.below(2),
                _ => random.below(KEY_END),
            };
            compared.insert_with(&mut both, store.handle, key, 1, lengths);
        }
    }
}

fn lengths_around(capacity: usize) -> Vec<[usize; 3]> {
    let mut all = vec![[capacity; 3], [capacity + 5; 3], [capacity - 1; 3], [0; 3]];
    for list in 0..3 {
        for length in [capacity - 1, capacity + 1, 0] {
            let mut lengths = [capacity; 3];
            lengths[list] = length;
            all.push(lengths);
        }
    }
    all
}
