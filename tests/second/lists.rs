//! Shapes of key lists: n rising keys each, from even to badly crowded.

use crate::model::{first_key_at, holds, slots_for, KEY_END};
use crate::random::Random;
use crate::sounding;

/// n keys of some shape.
pub type Shape = fn(usize, &mut Random) -> Vec<u64>;

/// Every shape that can be made in any number of keys, by name.
pub const SHAPES: [(&str, Shape); 13] = [
    ("run", run),
    ("even", even),
    ("uniform", uniform),
    ("dense", dense),
    ("powers of two", powers_of_two),
    ("two far ends", two_far_ends),
    ("clusters", clusters),
    ("around one key", around_one_key),
    ("nested clusters", nested_clusters),
    ("random gaps", random_gaps),
    ("growing gaps", growing_gaps),
    ("soundings", soundings),
    ("slot edges", slot_edges),
];

/// Sorts, then moves keys up where they repeat and down where there is no room above.
fn rising(mut draws: Vec<u64>) -> Vec<u64> {
    draws.sort_unstable();
    let n = draws.len();
    let mut least = 0;
    for (place, key) in draws.iter_mut().enumerate() {
        *key = (*key).max(least).min(KEY_END - (n - place) as u64);
        least = *key + 1;
    }
    draws
}

fn draw(n: usize, draws: impl FnMut() -> u64) -> Vec<u64> {
    rising(std::iter::repeat_with(draws).take(n).collect())
}

/// Keys one after another, anywhere.
pub fn run(n: usize, random: &mut Random) -> Vec<u64> {
    let start = random.below(KEY_END - n as u64 + 1);
    (0..n as u64).map(|i| start + i).collect()
}

/// Equal gaps.
pub fn even(n: usize, random: &mut Random) -> Vec<u64> {
    let step = 1 + random.below(KEY_END / (n as u64 + 1));
    let start = random.below(KEY_END - n as u64 * step);
    (0..n as u64).map(|i| start + i * step).collect()
}

/// Anywhere below 2^48.
pub fn uniform(n: usize, random: &mut Random) -> Vec<u64> {
    draw(n, || random.below(KEY_END))
}

/// Anywhere in a stretch of one to four times as many places as keys.
pub fn dense(n: usize, random: &mut Random) -> Vec<u64> {
    let width = random.between(n as u64, 4 * n as u64) + 1;
    let start = random.below(KEY_END - width);
    draw(n, || start + random.below(width))
}

/// Sums of one or two powers of two, give or take one.
pub fn powers_of_two(n: usize, random: &mut Random) -> Vec<u64> {
    let one_only = n < 40 && random.one_in(2);
    draw(n, || {
        let second = if one_only { 0 } else { 1 << random.below(47) };
        (1 << random.below(47)) + second + random.below(3) - 1
    })
}

/// Half near 0, half near 2^48, as crowded as chance has it.
pub fn two_far_ends(n: usize, random: &mut Random) -> Vec<u64> {
    let bits = random.between(4, 40);
    let low_in = random.between(2, 4);
    draw(n, || {
        let from_end = random.of_bits(bits);
        if random.one_in(low_in) {
            from_end
        } else {
            KEY_END - 1 - from_end
        }
    })
}

/// One to six places, each with its own width.
pub fn clusters(n: usize, random: &mut Random) -> Vec<u64> {
    let many = random.between(1, 6);
    let places: Vec<(u64, u64)> = (0..many)
        .map(|_| (random.below(KEY_END), 1 << random.between(1, 40)))
        .collect();
    draw(n, || {
        let (start, width) = places[random.below(many) as usize];
        (start + random.below(width)).min(KEY_END - 1)
    })
}

/// Crowded about one key, ever thinner away from it.
pub fn around_one_key(n: usize, random: &mut Random) -> Vec<u64> {
    let centre = random.below(KEY_END);
    draw(n, || {
        let away = random.of_bits(47);
        if random.one_in(2) {
            centre.saturating_sub(away)
        } else {
            (centre + away).min(KEY_END - 1)
        }
    })
}

/// Clusters in clusters in clusters.
pub fn nested_clusters(n: usize, random: &mut Random) -> Vec<u64> {
    let (top, middle) = (random.between(30, 46), random.between(10, 29));
    draw(n, || {
        (random.below(3) << top) + (random.below(4) << middle) + random.of_bits(8)
    })
}

/// Gaps of any size.
pub fn random_gaps(n: usize, random: &mut Random) -> Vec<u64> {
    let bits = random.between(1, gap_bits(n));
    let mut key = 0;
    draw(n, || {
        key += 1 + random.of_bits(bits);
        key
    })
}

/// The most bits a gap may have so that n of them stay below 2^48.
fn gap_bits(n: usize) -> u64 {
    46 - u64::from((n + 1).ilog2())
}

/// Each gap a little wider than the one before, or narrower.
pub fn growing_gaps(n: usize, random: &mut Random) -> Vec<u64> {
    let most = (1u64 << gap_bits(n)) as f64;
    let factor = 1.0 + 1.0 / random.between(1, 40) as f64;
    let falling = random.one_in(2);
    let (mut key, mut gap) = (0, 1.0f64);
    draw(n, || {
        key += gap as u64;
        gap = (gap * factor).min(most);
        if falling {
            KEY_END - 1 - key
        } else {
            key
        }
    })
}

/// Depths mostly 0 to 20 m, some drying, numbered in the order taken or at random.
pub fn soundings(n: usize, random: &mut Random) -> Vec<u64> {
    let numbered = random.one_in(2);
    survey(n, numbered, random)
}

/// The same, numbered in the order taken.
pub fn numbered_soundings(n: usize, random: &mut Random) -> Vec<u64> {
    survey(n, true, random)
}

fn survey(n: usize, numbered: bool, random: &mut Random) -> Vec<u64> {
    let mut taken = 0;
    draw(n, || {
        let depth = if random.one_in(10) {
            -(random.below(400) as i64)
        } else if random.one_in(50) {
            random.below(100_000) as i64
        } else {
            random.below(2_000) as i64
        };
        taken += 1;
        let number = if numbered {
            taken
        } else {
            random.below(sounding::MOST_NUMBER + 1)
        };
        sounding::key_of(depth, number).expect("in range")
    })
}

/// Most soundings within half a metre of the drying end, thinner and thinner below.
pub fn crowded_soundings(n: usize, random: &mut Random) -> Vec<u64> {
    let mut taken = 0;
    draw(n, || {
        let deeper = random.below(50)
            + if random.one_in(3) {
                random.of_bits(11)
            } else {
                0
            };
        taken += 1;
        sounding::key_of(deeper as i64 - 150, taken).expect("in range")
    })
}

/// Keys at, before and after the first keys of slots, for the model that some T would give.
pub fn slot_edges(n: usize, random: &mut Random) -> Vec<u64> {
    if n < 4 {
        return dense(n, random);
    }
    let t = random.between(1, (n as u64 - 2) / 2);
    let w = (n as u64 + random.of_bits(40)) * 2;
    let lo = random.between(2 * n as u64, KEY_END - w - 2 * n as u64);
    let l = slots_for(n);
    let mut keys = vec![lo, lo + w - 1];
    for i in 0..t {
        keys.extend([lo - 2 * i - 1, lo + w + 2 * i]);
    }
    while keys.len() < n {
        let first = first_key_at(random.between(1, l - 1), lo, w, l);
        keys.push(
            (first + random.below(3))
                .saturating_sub(1)
                .clamp(lo, lo + w - 1),
        );
    }
    keys.truncate(n);
    rising(keys)
}

/// The fewest keys for which `misleading` finds a list soon: about one in twelve is so there, one
/// in three at 64 keys. Lists of 11 keys are the shortest known.
pub const LEAST_MISLEADING: usize = 19;

/// A list on which the test of T holds for some T and fails for a larger one, so that a search for
/// T by halving may go wrong.
pub fn misleading(n: usize, random: &mut Random) -> Vec<u64> {
    loop {
        let keys = if random.one_in(4) {
            random_gaps(n, random)
        } else {
            nested_clusters(n, random)
        };
        let mut from_least = (1..=(n - 1) / 2)
            .map(|t| holds(&keys, t))
            .skip_while(|held| !held);
        if from_least.any(|held| !held) {
            return keys;
        }
    }
}

/// Keys in stretches: each a gap after the last key, then so many keys, so far apart.
#[derive(Clone, Debug)]
pub struct Stretch {
    pub gap: u64,
    pub keys: usize,
    pub step: u64,
}

/// The keys of the stretches, one after another, or nothing where they pass 2^48.
pub fn in_stretches(stretches: &[Stretch]) -> Option<Vec<u64>> {
    let mut keys = Vec::new();
    let mut next = 0u64;
    for stretch in stretches {
        next += stretch.gap;
        for _ in 0..stretch.keys {
            if next >= KEY_END {
                return None;
            }
            keys.push(next);
            next += stretch.step;
        }
    }
    Some(keys)
}
