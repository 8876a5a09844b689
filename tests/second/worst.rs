//! Key lists on which model choice is slow: those known, and a search for slower ones
//! (`second --worst`, which is no part of the comparison).
//!
//! Model choice tries T = 1, 2, .. in turn. A list is slow when many T fail and each fails late: a
//! crowd of neighbouring keys at the end, which stays in one slot as long as widely spread keys
//! stand before it. A crowd of 2m keys fails every T below m. The larger it is, the more T fail;
//! the smaller, the more keys are counted before it is met. Which m is slowest depends on how the
//! keys are counted, so several are kept.

use crate::edge;
use crate::lists::{in_stretches, Stretch};
use crate::model::{bytes_from, MOST_KEYS};
use crate::random::Random;
use std::time::{Duration, Instant};

/// The slowest lists known, each of MOST_KEYS keys.
pub fn known() -> Vec<Vec<u64>> {
    known_stretches()
        .iter()
        .filter_map(|stretches| in_stretches(stretches))
        .collect()
}

fn known_stretches() -> Vec<Vec<Stretch>> {
    [MOST_KEYS / 3, MOST_KEYS / 4, MOST_KEYS / 5]
        .map(crowd_at_end)
        .to_vec()
}

/// Widely spread keys, then 2m neighbours.
fn crowd_at_end(m: usize) -> Vec<Stretch> {
    let spread = Stretch {
        gap: 0,
        keys: MOST_KEYS - 2 * m,
        step: 1 << 33,
    };
    vec![
        spread,
        Stretch {
            gap: 1 << 40,
            keys: 2 * m,
            step: 1,
        },
    ]
}

/// Looks for slower lists for about that long, by changing the slowest a little at a time.
pub fn search(random: &mut Random, limit: Duration) {
    let start = Instant::now();
    let mut untried = known_stretches();
    let mut best = untried.remove(0);
    show(&best);
    while start.elapsed() < limit {
        let next = untried.pop().unwrap_or_else(|| another(&best, random));
        if slower(&next, &best) {
            best = next;
            show(&best);
        }
    }
}

fn another(best: &[Stretch], random: &mut Random) -> Vec<Stretch> {
    if random.one_in(4) {
        any_stretches(random)
    } else {
        changed(best, random)
    }
}

fn show(stretches: &[Stretch]) {
    let bytes = bytes_of(stretches);
    let least = (0..5).map(|_| time_of(&bytes)).min().expect("five times");
    println!("{:.1} ms", least.as_secs_f64() * 1e3);
    for Stretch { gap, keys, step } in stretches {
        println!("  gap {gap}, then {keys} keys {step} apart");
    }
}

/// Whether model choice takes longer on the first than on the second, by more than chance: the
/// least times of several turns are compared, and the turns alternate, since other work on the
/// machine slows both.
fn slower(first: &[Stretch], second: &[Stretch]) -> bool {
    let (first, second) = (bytes_of(first), bytes_of(second));
    let (mut least_first, mut least_second) = (Duration::MAX, Duration::MAX);
    for _ in 0..5 {
        least_first = least_first.min(time_of(&first));
        least_second = least_second.min(time_of(&second));
        if least_first < least_second {
            return false;
        }
    }
    least_first > least_second * 102 / 100
}

fn time_of(bytes: &[u8]) -> Duration {
    let start = Instant::now();
    std::hint::black_box(edge::model_choice(bytes));
    start.elapsed()
}

/// The list in bytes; an empty one where the stretches pass 2^48.
fn bytes_of(stretches: &[Stretch]) -> Vec<u8> {
    bytes_from(&in_stretches(stretches).unwrap_or_default())
}

/// One to five stretches of any widths.
fn any_stretches(random: &mut Random) -> Vec<Stretch> {
    let many = random.between(1, 5);
    let stretch = |_| Stretch {
        gap: random.of_bits(45),
        keys: random.between(1, MOST_KEYS as u64) as usize,
        step: 1 + random.of_bits(35),
    };
    whole((0..many).map(stretch).collect())
}

/// One thing about one stretch made smaller or larger, or the stretch parted in two.
fn changed(stretches: &[Stretch], random: &mut Random) -> Vec<Stretch> {
    let mut next = stretches.to_vec();
    let at = random.below(next.len() as u64) as usize;
    let factor = random.between(50, 200);
    let scaled = |number: u64| (number * factor / 100).clamp(1, 1 << 47);
    match random.below(4) {
        0 => next[at].gap = scaled(next[at].gap),
        1 => next[at].step = scaled(next[at].step),
        2 => next[at].keys = scaled(next[at].keys as u64) as usize,
        _ => next.insert(
            at,
            Stretch {
                gap: random.of_bits(45),
                ..next[at].clone()
            },
        ),
    }
    whole(next)
}

/// Brings the stretches to MOST_KEYS keys in all, keeping their proportions.
fn whole(mut stretches: Vec<Stretch>) -> Vec<Stretch> {
    let count = |stretches: &[Stretch]| stretches.iter().map(|stretch| stretch.keys).sum::<usize>();
    let before = count(&stretches);
    for stretch in &mut stretches {
        stretch.keys = stretch.keys * MOST_KEYS / before;
    }
    stretches[0].keys += MOST_KEYS - count(&stretches);
    stretches
}
