//! How long the three functions of the C edge take: key packing and slot choice over many random
//! soundings, models and keys; model choice over key lists of several lengths and shapes, the
//! slowest known among them. Prints a table: median, least and most of the repeats, for one call.

#![allow(dead_code)] // the second program's modules hold more than is measured here

#[path = "../tests/second/edge.rs"]
mod edge;
#[path = "../tests/second/lists.rs"]
mod lists;
#[path = "../tests/second/model.rs"]
mod model;
#[path = "../tests/second/random.rs"]
mod random;
#[path = "../tests/second/sounding.rs"]
mod sounding;
#[path = "../tests/second/worst.rs"]
mod worst;

use model::{bytes_from, KEY_END, MOST_KEYS};
use random::Random;
use std::hint::black_box;
use std::time::Instant;

const SEED: u64 = 20_000;
const REPEATS: usize = 7;
/// Each repeat of a short call goes on for about this many nanoseconds.
const LONG_ENOUGH: f64 = 2e7;

fn main() {
    let random = &mut Random::new(SEED, 0);
    println!(
        "{:34} {:>6} {:>5} {:>12} {:>12} {:>12}",
        "one call", "keys", "T", "median", "least", "most"
    );
    key_packing(random);
    slot_choice(random);
    for n in [64, 512, 4_096, MOST_KEYS] {
        model_choice("model choice, uniform", &lists::uniform(n, random));
        model_choice("model choice, soundings", &lists::soundings(n, random));
        model_choice(
            "model choice, crowded soundings",
            &lists::crowded_soundings(n, random),
        );
    }
    for keys in worst::known() {
        model_choice("model choice, worst found", &keys);
    }
}

fn key_packing(random: &mut Random) {
    let depths = (sounding::MOST_DEPTH - sounding::LEAST_DEPTH) as u64 + 1;
    let any = |_| {
        let depth = sounding::LEAST_DEPTH + random.below(depths) as i64;
        (depth, random.below(sounding::MOST_NUMBER + 1))
    };
    let soundings: Vec<(i64, u64)> = (0..4_096).map(any).collect();
    each_of("key packing", &soundings, |&(depth, number)| {
        black_box(edge::pack(depth, number));
    });
}

fn slot_choice(random: &mut Random) {
    let any = |_| {
        let w = 1 + random.of_bits(48);
        let lo = random.below(KEY_END - w + 1);
        // one key in eight lies anywhere, the others within the spread
        let key = if random.one_in(8) {
            random.below(KEY_END)
        } else {
            lo + random.below(w)
        };
        (key, lo, w, random.between(4, 4_096))
    };
    let cases: Vec<(u64, u64, u64, u64)> = (0..4_096).map(any).collect();
    each_of("slot choice", &cases, |&(key, lo, w, l)| {
        black_box(edge::slot_choice(key, lo, w, l));
    });
    // as down a path: no call begins before the slot of the one before is known
    let mut slot = 0;
    each_of(
        "slot choice, one after another",
        &cases,
        |&(key, lo, w, l)| {
            slot = edge::slot_choice(key ^ (slot >> 63), lo, w, l).slot;
        },
    );
    black_box(slot);
}

/// Measures a short call on each of many inputs in turn.
fn each_of<Input>(what: &str, inputs: &[Input], mut call: impl FnMut(&Input)) {
    let times = repeat(|| inputs.iter().for_each(&mut call));
    row(what, "", "", times.map(|time| time / inputs.len() as f64));
}

fn model_choice(what: &str, keys: &[u64]) {
    let bytes = bytes_from(keys);
    let t = edge::model_choice(&bytes).t.to_string();
    let times = repeat(|| {
        black_box(edge::model_choice(black_box(&bytes)));
    });
    row(what, &keys.len().to_string(), &t, times);
}

/// Median, least and most time in nanoseconds over the repeats.
fn repeat(mut work: impl FnMut()) -> [f64; 3] {
    let mut timed = |times: u64| {
        let start = Instant::now();
        (0..times).for_each(|_| work());
        start.elapsed().as_secs_f64() * 1e9 / times as f64
    };
    let times = (LONG_ENOUGH / timed(1)).clamp(1.0, 1e6) as u64;
    let mut all: Vec<f64> = (0..REPEATS).map(|_| timed(times)).collect();
    all.sort_by(f64::total_cmp);
    [all[REPEATS / 2], all[0], all[REPEATS - 1]]
}

fn row(what: &str, keys: &str, t: &str, times: [f64; 3]) {
    let [median, least, most] = times.map(in_words);
    println!("{what:34} {keys:>6} {t:>5} {median:>12} {least:>12} {most:>12}");
}

fn in_words(nanoseconds: f64) -> String {
    match nanoseconds {
        n if n < 1e4 => format!("{n:.1} ns"),
        n if n < 1e7 => format!("{:.1} µs", n / 1e3),
        n => format!("{:.1} ms", n / 1e6),
    }
}
