//! Whole sessions: every input goes through the compiled session program and, operation by
//! operation, through the desk library, and both are compared with the second store. All that the
//! program prints has to be what the second program prints, byte by byte; after each call of the
//! library all lent words have to be the second store's, and to make a sound tree (desk/course.rs).
//!
//!     sessions --program COMMAND     the standard run; last line 'sessions: N passed, 0 failed',
//!                                    where N counts operations
//!              --operations N        as many operations as wanted
//!              --seed NUMBER         other random inputs
//!              --replay FILE         one input from a file
//!
//! Without --program only the library is compared. Before an input is tried its bytes are written to
//! target/second/stream.session, so that the one that failed is there to be tried again.

#![allow(dead_code)] // the modules shared with the other programs hold more than is used here

mod desk;
mod lists;
mod model;
mod random;
mod session;
mod sessions;
mod sounding;
mod store;

use desk::compared::Compared;
use random::Random;
use session::{End, Printed};
use sessions::ends;
use sessions::program::{Program, Writes};
use sessions::reached::Reached;
use sessions::streams::{Script, KINDS};
use sessions::watched::Watched;
use std::collections::BTreeMap;
use std::time::Instant;

const SEED: u64 = 20_000;
const OPERATIONS: u64 = 2_000_000;
/// A run of at least so many operations tries every end and one input of more than 1 MB.
const LONG_RUN: u64 = 1_000_000;
const REPLAY: &str = "target/second/stream.session";

struct Run {
    program: Option<Program>,
    compared: Compared,
    reached: Reached,
    operations: u64,
    /// For each kind of stream its operations and seconds.
    kinds: BTreeMap<&'static str, (u64, f64)>,
}

impl Run {
    fn input(&mut self, kind: &'static str, about: &str, input: &[u8], writes: Writes) {
        let start = Instant::now();
        if let Err(error) = std::fs::write(REPLAY, input) {
            println!("{REPLAY} could not be written: {error}");
        }
        self.compared.about = format!("{kind}, {about}; its bytes are in {REPLAY}");
        self.compared.operation = 0;
        let mut store = Watched::start(&mut self.compared, &mut self.reached);
        let ours = session::run(input, &mut store);
        match ours.end {
            End::Boundary => {}
            End::UnknownKind => self.reached.note("x for an unknown kind"),
            End::ShortBody => self.reached.note("x for a short body"),
        }
        if let Some(program) = &self.program {
            match program.print(input, writes) {
                Ok(theirs) if theirs == ours.bytes => {}
                Ok(theirs) => self.differ(&ours, &theirs),
                Err(what) => {
                    println!("{what}: {}", self.compared.about);
                    self.compared.operation = 0;
                    self.fail();
                }
            }
        }
        self.operations += ours.operations();
        self.compared.cases = self.operations;
        let sum = self.kinds.entry(kind).or_default();
        sum.0 += ours.operations();
        sum.1 += start.elapsed().as_secs_f64();
    }

    /// Shows the first line that differs, and says whose operation it is.
    fn differ(&mut self, ours: &Printed, theirs: &[u8]) -> ! {
        let same = ours.bytes.iter().zip(theirs).take_while(|(a, b)| a == b);
        let at = same.count();
        let line_end = ours.bytes[..at].iter().rposition(|&byte| byte == b'\n');
        let from = line_end.map_or(0, |end| end + 1);
        println!("they print differently from byte {at} on");
        println!("  second program:  {:?}", first_line(&ours.bytes[from..]));
        println!("  session program: {:?}", first_line(&theirs[from..]));
        let operation = ours.starts.partition_point(|&start| start <= from);
        self.compared.operation = operation as u64;
        self.fail()
    }

    fn fail(&mut self) -> ! {
        self.compared.cases = self.operations;
        self.compared.fail()
    }

    fn all_ends(&mut self, seed: u64) {
        for (name, input) in ends::all(&mut Random::new(seed, 1)) {
            self.input("ends", &name, &input, Writes::Whole);
        }
    }

    /// Streams of every kind in turn until so many operations are compared.
    fn streams(&mut self, seed: u64, operations: u64) {
        let longest = (operations / KINDS.len() as u64).clamp(100, 16_000);
        for number in 0.. {
            if self.operations >= operations && number >= KINDS.len() {
                return;
            }
            let (kind, write) = KINDS[number % KINDS.len()];
            let random = &mut Random::new(seed, 100 + number as u64);
            let (mut script, many) = (Script::default(), random.between(longest / 4, longest));
            write(&mut script, many, random);
            ends::any(&mut script, random);
            let about = format!("stream {number} of seed {seed}");
            let tiny = number % 23 == 7;
            let writes = if tiny { Writes::Tiny } else { Writes::Whole };
            self.input(kind, &about, &script.bytes, writes);
        }
    }

    /// All kinds one after another in one input, longer than any block it may be read in.
    fn one_large(&mut self, seed: u64) {
        let random = &mut Random::new(seed, 2);
        let mut script = Script::default();
        while script.bytes.len() < 1 << 20 {
            for (_, write) in KINDS {
                write(&mut script, 4_000, random);
            }
        }
        ends::any(&mut script, random);
        self.input(
            "one large",
            &format!("seed {seed}"),
            &script.bytes,
            Writes::Whole,
        );
    }

    fn print(&self) {
        println!(
            "{:32} {:>10} {:>8}",
            "kind of stream", "operations", "seconds"
        );
        for (kind, (operations, seconds)) in &self.kinds {
            println!("{kind:32} {operations:>10} {seconds:>8.1}");
        }
        println!("answers reached");
        self.reached.print();
    }
}

/// The line that the bytes begin with, its end included, as far as it is short.
fn first_line(bytes: &[u8]) -> String {
    let line = bytes.split_inclusive(|&byte| byte == b'\n').next();
    let line = line.unwrap_or(&[]);
    String::from_utf8_lossy(&line[..line.len().min(200)]).into_owned()
}

fn main() {
    let arguments = read_arguments();
    let (seed, operations) = (arguments.seed, arguments.operations);
    println!("seed {seed}");
    let mut run = Run {
        program: arguments.program.as_deref().and_then(Program::new),
        compared: Compared::new("sessions"),
        reached: Reached::default(),
        operations: 0,
        kinds: BTreeMap::new(),
    };
    if run.program.is_none() {
        println!("no session program is named: only the desk library is compared");
    }
    if let Some(file) = arguments.replay {
        let input = std::fs::read(&file).unwrap_or_else(|error| {
            eprintln!("{file} could not be read: {error}");
            std::process::exit(2);
        });
        run.input("replay", &file, &input, Writes::Whole);
    } else {
        if operations >= LONG_RUN {
            run.all_ends(seed);
            run.one_large(seed);
        }
        run.streams(seed, operations);
    }
    run.print();
    if (seed, operations) == (SEED, OPERATIONS) {
        judge_reached(&mut run);
    }
    println!("sessions: {} passed, 0 failed", run.operations);
}

/// The standard run reaches what it reached before.
fn judge_reached(run: &mut Run) {
    for name in run.reached.new() {
        println!("reached for the first time: '{name}'; add it to tests/second/reached.txt");
    }
    if let Some(name) = run.reached.missed() {
        println!(
            "'{name}' was reached before and is not reached now: see tests/second/reached.txt"
        );
        println!("sessions: {} passed, 1 failed", run.operations);
        std::process::exit(1);
    }
}

struct Arguments {
    program: Option<String>,
    operations: u64,
    seed: u64,
    replay: Option<String>,
}

fn read_arguments() -> Arguments {
    let mut arguments = Arguments {
        program: None,
        operations: OPERATIONS,
        seed: SEED,
        replay: None,
    };
    let mut words = std::env::args().skip(1);
    while let Some(word) = words.next() {
        let value = words.next().unwrap_or_else(|| usage());
        match word.as_str() {
            "--program" => arguments.program = Some(value),
            "--operations" => arguments.operations = value.parse().unwrap_or_else(|_| usage()),
            "--seed" => arguments.seed = value.parse().unwrap_or_else(|_| usage()),
            "--replay" => {
                arguments.replay = Some(value);
                arguments.operations = 0;
            }
            _ => usage(),
        }
    }
    arguments
}

fn usage() -> ! {
    eprintln!(
        "usage: sessions [--program COMMAND] [--operations N] [--seed NUMBER] [--replay FILE]"
    );
    std::process::exit(2);
}
