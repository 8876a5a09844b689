//! The second program's second half: the store written once more, from document 01 alone and in the
//! plainest way, and compared with the compiled library libdesk, call by call and word by word.
//!
//!     desk                 compare; the last line is 'desk: N passed, 0 failed'
//!     desk --seed NUMBER   the same with other random inputs
//!     desk --only NAME     only the parts whose name begins so
//!
//! It shares no code with the proved crates. N counts calls of the library in which the answer and
//! every lent word agreed, and the rows of the part 'document', which the second store has to hold
//! by itself. Parts that need a call which the library lacks are left out: see desk/library.rs.

#![allow(dead_code)] // the modules shared with the first half hold more than is used here

mod desk;
mod lists;
mod model;
mod random;
mod sounding;
mod store;

use desk::compared::Compared;
use desk::*;
use random::Random;
use std::time::Instant;

/// A part: its name, the calls of the library that it needs, and the comparison.
struct Part {
    name: &'static str,
    needs: &'static [&'static str],
    compare: fn(&mut Compared, &mut Random),
}

const fn part(
    name: &'static str,
    needs: &'static [&'static str],
    compare: fn(&mut Compared, &mut Random),
) -> Part {
    Part {
        name,
        needs,
        compare,
    }
}

const PARTS: [Part; 12] = [
    part("document", &[], part_document::compare),
    part("unpack", &["unpack"], part_unpack::compare),
    part("load", &["load"], part_load::compare),
    part("lookup", &["lookup"], part_path::compare_lookup),
    part("replace", &["replace"], part_path::compare_replace),
    part("delete", &["delete"], part_path::compare_delete),
    part("band", &["band"], part_band::compare),
    part("insert, streams", &["insert"], part_streams::compare),
    part("insert, long paths", &["insert"], part_deep::compare),
    part("insert, due nodes", &["insert"], part_due::compare),
    part("insert, harmed", &["insert"], part_harmed::compare),
    part("sound stores", &["load"], part_sound::compare),
];

const SEED: u64 = 20_000;

fn main() {
    let (seed, only) = read_arguments();
    println!("seed {seed}");
    let mut compared = Compared::new("desk");
    for (at, part) in (1..).zip(&PARTS) {
        if !part.name.starts_with(&only) {
            continue;
        }
        match part.needs.iter().find(|call| !library::has(call)) {
            Some(call) => println!("{}: left out, the library has no {call}", part.name),
            None => run(part, &mut compared, &mut Random::new(seed, 100 + at)),
        }
    }
    println!("desk: {} passed, 0 failed", compared.cases);
}

fn run(part: &Part, compared: &mut Compared, random: &mut Random) {
    let (before, start) = (compared.cases, Instant::now());
    compared.begin();
    (part.compare)(compared, random);
    println!("{}: {} cases agree", part.name, compared.cases - before);
    compared.print_reached();
    eprintln!("{}: {:.1} s", part.name, start.elapsed().as_secs_f64());
}

fn read_arguments() -> (u64, String) {
    let (mut seed, mut only) = (SEED, String::new());
    let mut words = std::env::args().skip(1);
    while let Some(word) = words.next() {
        match (word.as_str(), words.next()) {
            ("--seed", Some(number)) => match number.parse() {
                Ok(number) => seed = number,
                Err(_) => usage(),
            },
            ("--only", Some(name)) => only = name,
            _ => usage(),
        }
    }
    (seed, only)
}

fn usage() -> ! {
    eprintln!("usage: desk [--seed NUMBER] [--only NAME]");
    std::process::exit(2);
}
