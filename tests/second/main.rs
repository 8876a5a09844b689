//! The independent second program: key packing, slot choice and model choice written once more,
//! from document 01 alone and in the plainest way, and compared with the C edge on many inputs.
//!
//!     second                 compare; the last line is 'second: N passed, 0 failed'
//!     second --seed NUMBER   the same with other random inputs
//!     second --worst         look for key lists on which model choice is slow
//!
//! It shares no code with the proved crates. N counts calls of the C edge whose every field agreed.

mod compare;
mod edge;
mod lists;
mod model;
mod part_keys;
mod part_models;
mod part_slots;
mod random;
mod sounding;
mod worst;

use compare::Compared;
use random::Random;
use std::time::{Duration, Instant};

type Part = fn(&mut Compared, &mut Random);

const PARTS: [(&str, Part); 5] = [
    ("key packing", part_keys::compare),
    ("slot choice", part_slots::compare),
    ("model choice, small lists", part_models::compare_small),
    ("model choice, large lists", part_models::compare_large),
    ("model choice, refusals", part_models::compare_refused),
];

const SEED: u64 = 20_000;
const SEARCH: Duration = Duration::from_secs(60);

fn main() {
    let (seed, search) = read_arguments();
    println!("seed {seed}");
    if search {
        worst::search(&mut Random::new(seed, 0), SEARCH);
    } else {
        compare_all(seed);
    }
}

fn compare_all(seed: u64) {
    let mut compared = Compared::default();
    for (part, (name, compare)) in (1..).zip(PARTS) {
        let (before, start) = (compared.cases, Instant::now());
        compare(&mut compared, &mut Random::new(seed, part));
        println!("{name}: {} cases agree", compared.cases - before);
        eprintln!("{name}: {:.1} s", start.elapsed().as_secs_f64());
    }
    println!("second: {} passed, 0 failed", compared.cases);
}

fn read_arguments() -> (u64, bool) {
    let (mut seed, mut search) = (SEED, false);
    let mut words = std::env::args().skip(1);
    while let Some(word) = words.next() {
        match word.as_str() {
            "--worst" => search = true,
            "--seed" => match words.next().and_then(|number| number.parse().ok()) {
                Some(number) => seed = number,
                None => usage(),
            },
            _ => usage(),
        }
    }
    (seed, search)
}

fn usage() -> ! {
    eprintln!("usage: second [--seed NUMBER] [--worst]");
    std::process::exit(2);
}
