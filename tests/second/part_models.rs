//! Cases for model choice: key lists of every shape and size, lists that do not rise, and byte
//! lists of a wrong length.

use crate::compare::Compared;
use crate::lists::{self, SHAPES};
use crate::model::{bytes_from, KEY_BYTES, KEY_END, MOST_KEYS};
use crate::random::Random;
use crate::worst;

/// Rising lists up to about 2,000 keys.
pub fn compare_small(compared: &mut Compared, random: &mut Random) {
    subsets(compared);
    every_length(compared, random);
    misleading(compared, random);
    around_most_slots(compared, random);
}

/// Rising lists of thousands of keys, the slowest known among them.
pub fn compare_large(compared: &mut Compared, random: &mut Random) {
    for (name, shape) in SHAPES {
        for n in [3_000, 8_191, MOST_KEYS - 1, MOST_KEYS, MOST_KEYS] {
            compared.keys(name, &shape(n, random));
        }
    }
    for n in [512, 4_096, MOST_KEYS] {
        compared.keys("crowded soundings", &lists::crowded_soundings(n, random));
    }
    for keys in worst::known() {
        compared.keys("worst found", &keys);
    }
}

/// Lists answered by a refusal.
pub fn compare_refused(compared: &mut Compared, random: &mut Random) {
    wrong_lengths(compared, random);
    one_fault(compared, random);
    two_faults(compared, random);
    any_bytes(compared, random);
}

/// Every list that can be made of 14 keys, with narrow and with uneven gaps between them.
fn subsets(compared: &mut Compared) {
    for gaps in [[1, 1, 1], [1, 2, 7], [1, 40, 3]] {
        let mut all = vec![0];
        for i in 1..14 {
            all.push(all[i - 1] + gaps[i % 3]);
        }
        for chosen in 0..1u32 << all.len() {
            let taken = |&i: &usize| chosen >> i & 1 == 1;
            let keys: Vec<u64> = (0..all.len()).filter(taken).map(|i| all[i]).collect();
            compared.keys("subset", &keys);
        }
    }
}

fn every_length(compared: &mut Compared, random: &mut Random) {
    for n in 0..=64 {
        for (name, shape) in SHAPES {
            for _ in 0..60 {
                compared.keys(name, &shape(n, random));
            }
        }
    }
    for (name, shape) in SHAPES {
        for _ in 0..100 {
            let n = random.between(65, 1_000) as usize;
            compared.keys(name, &shape(n, random));
        }
    }
}

/// Lists on which the test of T holds for some T and fails for a larger one.
fn misleading(compared: &mut Compared, random: &mut Random) {
    for n in lists::LEAST_MISLEADING..=64 {
        for _ in 0..40 {
            compared.keys("misleading", &lists::misleading(n, random));
        }
    }
    for _ in 0..50 {
        let n = random.between(65, 400) as usize;
        compared.keys("misleading", &lists::misleading(n, random));
    }
}

/// From 2,048 keys on L stays at 4,096.
fn around_most_slots(compared: &mut Compared, random: &mut Random) {
    for n in 2_046..=2_051 {
        for (name, shape) in SHAPES {
            compared.keys(name, &shape(n, random));
        }
    }
}

/// Bytes left over after whole keys, more keys than allowed, and both; rising or not makes no
/// difference.
fn wrong_lengths(compared: &mut Compared, random: &mut Random) {
    for n in (0..=20)
        .chain(MOST_KEYS - 2..=MOST_KEYS + 3)
        .chain([20_000, 65_536])
    {
        for mut keys in [lists::run(n + 1, random), lists::uniform(n + 1, random)] {
            for more in 0..KEY_BYTES {
                compared.bytes("wrong length", &bytes_from(&keys)[..KEY_BYTES * n + more]);
            }
            keys.reverse();
            for more in 0..KEY_BYTES {
                compared.bytes(
                    "wrong length, falling",
                    &bytes_from(&keys)[..KEY_BYTES * n + more],
                );
            }
        }
    }
}

/// The lengths and places at which rising lists are broken.
fn places_of_faults() -> impl Iterator<Item = (usize, usize)> {
    let short = [2, 3, 4, 5, 6, 7, 16, 64, 100];
    let all = short
        .into_iter()
        .flat_map(|n| (1..n).map(move |place| (n, place)));
    all.chain([1, 2, 4_000, MOST_KEYS - 2, MOST_KEYS - 1].map(|place| (MOST_KEYS, place)))
}

fn one_fault(compared: &mut Compared, random: &mut Random) {
    for (n, place) in places_of_faults() {
        for shape in [lists::run, lists::uniform, lists::soundings] {
            let keys = shape(n, random);
            let before = keys[place - 1];
            for wrong in [
                before,
                before.saturating_sub(1),
                0,
                random.below(before + 1),
            ] {
                let mut keys = keys.clone();
                keys[place] = wrong;
                compared.keys("a key not above its forerunner", &keys);
            }
            let mut keys = keys;
            keys[place - 1] = KEY_END - 1;
            compared.keys("a key above all", &keys);
        }
    }
}

/// The first fault counts.
fn two_faults(compared: &mut Compared, random: &mut Random) {
    for (n, place) in places_of_faults() {
        let mut keys = lists::uniform(n, random);
        let other = random.between(1, n as u64 - 1) as usize;
        keys[place] = random.below(keys[place - 1] + 1);
        keys[other] = random.below(keys[other - 1] + 1);
        compared.keys("two faults", &keys);
    }
}

fn any_bytes(compared: &mut Compared, random: &mut Random) {
    for _ in 0..5_000 {
        let length = random.below(40) as usize;
        let bytes: Vec<u8> = (0..length).map(|_| random.any() as u8).collect();
        compared.bytes("any bytes", &bytes);
    }
}
