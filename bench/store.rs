//! How long the calls of the index take, beside the ordered map of Rust's standard library and a
//! sorted array searched by halving, on the same keys in the same run. Prints a table: the time of
//! one call (for a load: of the whole list), least of the repeats, and how many times as long as
//! the other two the index takes. Below 1 the index is faster. The three take turns, so that what
//! disturbs one disturbs the others.
//!
//!     store                  the tables
//!     store --series FILE    and the times of lookup and insert against the number of keys, one
//!                            measurement to a line, for tools/speed

#![allow(dead_code)] // the second program's modules hold more than is measured here

#[path = "../tests/second/lists.rs"]
mod lists;
#[path = "../tests/second/model.rs"]
mod model;
#[path = "../tests/second/random.rs"]
mod random;
#[path = "../tests/second/sounding.rs"]
mod sounding;
#[path = "../tests/second/store/mod.rs"]
mod store;

#[path = "../tests/second/desk"]
mod desk {
    pub mod lent;
    pub mod library;
    pub mod stores;
}

use desk::lent::{Lent, LentScratch, List};
use desk::library;
use desk::stores::{need, payload_of, payloads_of, shuffled};
use model::{KEY_END, MOST_KEYS};
use random::Random;
use std::collections::BTreeMap;
use std::fmt::Write;
use std::hint::black_box;
use std::time::Instant;
use store::answers::{Handle, Inserted, DONE};
use store::pools::{Mem, Scratch, RECORDS, SLOTS};

const SEED: u64 = 20_000;
const REPEATS: usize = 41;
/// In nanoseconds: no turn begins later.
const LONG_ENOUGH: f64 = 1e9;
/// A turn of a short call goes over so many.
const MANY: usize = 20_000;
/// A band lists this many.
const BAND: usize = 64;

fn main() {
    let series = read_arguments();
    for (call, there) in library::CALLS {
        assert!(there, "the library has {call}");
    }
    let random = &mut Random::new(SEED, 0);
    let mut report = Report::default();
    load(
        &mut report,
        "load, uniform",
        &lists::uniform(MOST_KEYS, random),
    );
    load(
        &mut report,
        "load, near the drying end",
        &lists::crowded_soundings(MOST_KEYS, random),
    );
    for n in [512, 4_096, MOST_KEYS] {
        let course = Course::soundings(n, random);
        load(&mut report, "load", &course.sorted());
        lookups(&mut report, "lookup, held", &course, &course.held, random);
        lookups(
            &mut report,
            "lookup, absent",
            &course,
            &course.absent,
            random,
        );
        bands(&mut report, &course, random);
        replaces(&mut report, &course, random);
        deletes(&mut report, &course);
        inserts(&mut report, &course);
        inserts_one_by_one(&mut report, &course);
        inserts_barely(&mut report, &course);
    }
    report.print();
    if let Some(file) = series {
        let lines = measure_series(random);
        std::fs::write(&file, lines).unwrap_or_else(|error| {
            eprintln!("{file} could not be written: {error}");
            std::process::exit(1);
        });
    }
}

fn read_arguments() -> Option<String> {
    let words: Vec<String> = std::env::args().skip(1).collect();
    match &words[..] {
        [] => None,
        [series, file] if series == "--series" => Some(file.clone()),
        _ => {
            eprintln!("usage: store [--series FILE]");
            std::process::exit(2);
        }
    }
}

/// Times of one call of the index, the map and the array, in nanoseconds.
type Three = [f64; 3];

/// The rows of the two tables.
#[derive(Default)]
struct Report {
    rows: Vec<String>,
    inserts: Vec<String>,
}

impl Report {
    fn row(&mut self, what: &str, keys: usize, times: Three) {
        let [ours, map, array] = times;
        self.rows.push(format!(
            "| {what:26} | {:>6} | {:>9} | {:>9} | {:>6.2} | {:>9} | {:>6.2} |",
            grouped(keys as u64),
            in_words(ours),
            in_words(map),
            ours / map,
            in_words(array),
            ours / array
        ));
    }

    fn print(&self) {
        println!("| one call                   |   keys |     index |  BTreeMap |  ratio |     array |  ratio |");
        println!("|---|---|---|---|---|---|---|");
        self.rows.iter().for_each(|row| println!("{row}"));
        println!();
        println!("| inserts | keys | records | slots | longest | conflicts | tidied | put off | whole tree |");
        println!("|---|---|---|---|---|---|---|---|---|");
        self.inserts.iter().for_each(|row| println!("{row}"));
    }
}

/// Lookup and insert at 64, 128, .. keys, taken from one survey: a line is a call, the number of keys
/// and the three times.
fn measure_series(random: &mut Random) -> String {
    let survey = lists::numbered_soundings(MOST_KEYS + MOST_KEYS / 8, random);
    let mut survey = shuffled(survey, random);
    let mut lines = String::new();
    let mut n = 64;
    while n <= MOST_KEYS {
        survey.rotate_left(n);
        let course = Course::new(survey[..n + n / 8].to_vec(), n);
        let three = [
            (
                "lookup",
                lookup_times(&course, &asked(&course.held, random)),
            ),
            ("insert", insert_times(&loaded_for(&course), &course.absent)),
            (
                "from-nothing",
                insert_times(&nothing_for(&course), &course.held),
            ),
        ];
        for (call, [ours, map, array]) in three {
            writeln!(lines, "{call} {n} {ours:.2} {map:.2} {array:.2}").expect("it is a string");
        }
        n *= 2;
    }
    lines
}

/// An index in its pools.
#[derive(Clone)]
struct Index {
    pools: Lent,
    scratch: LentScratch,
    handle: Handle,
}

impl Index {
    /// In pools with room for two such trees, as far as the limits allow.
    fn new(capacity: u64, keys: &[u64]) -> Index {
        let (records, slots) = need(keys);
        let records = (2 * records + 64).min(*RECORDS.end() as usize);
        let slots = (2 * slots + 256).min(*SLOTS.end() as usize);
        let mut index = Index {
            pools: Lent::default(),
            scratch: LentScratch::default(),
            handle: Handle::default(),
        };
        let zeros = || vec![0; capacity as usize];
        let [keys_list, payloads, places] = [zeros(), zeros(), zeros()];
        index.pools.set(&Mem::zeros(records, slots));
        index.scratch.set(&Scratch {
            keys: keys_list,
            payloads,
            places,
        });
        let (keys, payloads) = (List::new(keys), List::new(&payloads_of(keys)));
        let loaded = library::load(capacity, &keys, &payloads, &mut index.pools);
        assert_eq!(loaded.number, DONE, "the pools are large enough");
        index.handle = loaded.handle;
        index
    }

    /// With nothing in it, in pools of so many records and slots.
    fn empty(capacity: u64, records: usize, slots: usize) -> Index {
        let mut index = Index::new(capacity, &[]);
        index.pools.set(&Mem::zeros(records, slots));
        let none = List::new(&[]);
        let loaded = library::load(capacity, &none, &none, &mut index.pools);
        assert_eq!(loaded.number, DONE, "there is room for nothing");
        index.handle = loaded.handle;
        index
    }

    fn insert(&mut self, key: u64) -> Inserted {
        let inserted = library::insert(self.handle, key, key, &mut self.pools, &mut self.scratch);
        self.handle = inserted.handle;
        inserted
    }
}

fn load(report: &mut Report, what: &str, keys: &[u64]) {
    let payloads = payloads_of(keys);
    let capacity = keys.len() as u64;
    let mut index = Index::new(capacity, keys);
    let (lent_keys, lent_payloads) = (List::new(keys), List::new(&payloads));
    let pairs = || keys.iter().copied().zip(payloads.iter().copied());
    let times = in_turns(
        1,
        [
            &mut timed(
                || (),
                |()| {
                    let pools = &mut index.pools;
                    black_box(library::load(capacity, &lent_keys, &lent_payloads, pools));
                },
            ),
            &mut timed(
                || (),
                |()| {
                    black_box(pairs().collect::<BTreeMap<u64, u64>>());
                },
            ),
            &mut timed(
                || (),
                |()| {
                    black_box(pairs().collect::<Vec<(u64, u64)>>());
                },
            ),
        ],
    );
    report.row(what, keys.len(), times);
}

/// The three with the same keys, and keys that are not held.
struct Course {
    index: Index,
    map: BTreeMap<u64, u64>,
    array: Vec<(u64, u64)>,
    held: Vec<u64>,
    absent: Vec<u64>,
}

impl Course {
    /// n soundings are held and an eighth as many are absent, each in random order.
    fn soundings(n: usize, random: &mut Random) -> Course {
        let all = lists::numbered_soundings(n + n / 8, random);
        Course::new(shuffled(all, random), n)
    }

    /// The first n keys are held, the others absent.
    fn new(mut held: Vec<u64>, n: usize) -> Course {
        let absent = held.split_off(n);
        let mut sorted = held.clone();
        sorted.sort_unstable();
        let array: Vec<(u64, u64)> = sorted.iter().map(|&key| (key, payload_of(key))).collect();
        Course {
            index: Index::new((n + absent.len()).min(MOST_KEYS) as u64, &sorted),
            map: array.iter().copied().collect(),
            array,
            held,
            absent,
        }
    }

    fn sorted(&self) -> Vec<u64> {
        self.array.iter().map(|&(key, _)| key).collect()
    }
}

fn find(array: &[(u64, u64)], key: u64) -> Result<usize, usize> {
    array.binary_search_by_key(&key, |&(key, _)| key)
}

/// MANY draws from these keys.
fn asked(keys: &[u64], random: &mut Random) -> Vec<u64> {
    let draw = |_| keys[random.below(keys.len() as u64) as usize];
    (0..MANY).map(draw).collect()
}

fn lookups(report: &mut Report, what: &str, course: &Course, keys: &[u64], random: &mut Random) {
    report.row(
        what,
        course.held.len(),
        lookup_times(course, &asked(keys, random)),
    );
}

fn lookup_times(course: &Course, keys: &[u64]) -> Three {
    let Index { pools, handle, .. } = &course.index;
    in_turns(
        keys.len(),
        [
            &mut each(keys, |key| {
                black_box(library::lookup(*handle, key, pools));
            }),
            &mut each(keys, |key| {
                black_box(course.map.get(&key));
            }),
            &mut each(keys, |key| {
                black_box(find(&course.array, key).map(|at| course.array[at].1).ok());
            }),
        ],
    )
}

fn bands(report: &mut Report, course: &Course, random: &mut Random) {
    let Index { pools, handle, .. } = &course.index;
    let starts = &asked(&course.held, random)[..1_000];
    let (mut keys, mut payloads) = (List::new(&[0; BAND]), List::new(&[0; BAND]));
    let (mut from_map, mut from_array) = ([(0, 0); BAND], [(0, 0); BAND]);
    let times = in_turns(
        starts.len(),
        [
            &mut each(starts, |u| {
                let (keys, payloads) = (&mut keys, &mut payloads);
                black_box(library::band(
                    *handle,
                    u,
                    KEY_END - 1,
                    pools,
                    keys,
                    payloads,
                ));
            }),
            &mut each(starts, |u| {
                let from = course.map.range(u..KEY_END);
                for (place, (&key, &payload)) in from_map.iter_mut().zip(from) {
                    *place = (key, payload);
                }
                black_box(&from_map);
            }),
            &mut each(starts, |u| {
                let from = &course.array[find(&course.array, u).unwrap_or_else(|at| at)..];
                let many = from.len().min(BAND);
                from_array[..many].copy_from_slice(&from[..many]);
                black_box(&from_array);
            }),
        ],
    );
    report.row("band of 64", course.held.len(), times);
}

fn replaces(report: &mut Report, course: &Course, random: &mut Random) {
    let keys = &asked(&course.held, random);
    let mut index = course.index.clone();
    let (mut map, mut array) = (course.map.clone(), course.array.clone());
    let times = in_turns(
        keys.len(),
        [
            &mut each(keys, |key| {
                black_box(library::replace(index.handle, key, key, &mut index.pools));
            }),
            &mut each(keys, |key| {
                if let Some(payload) = map.get_mut(&key) {
                    *payload = key;
                }
            }),
            &mut each(keys, |key| {
                if let Ok(at) = find(&array, key) {
                    array[at].1 = key;
                }
            }),
        ],
    );
    report.row("replace", course.held.len(), times);
}

/// An eighth of the keys, one after another.
fn deletes(report: &mut Report, course: &Course) {
    let keys = &course.held[..course.held.len() / 8];
    let times = in_turns(
        keys.len(),
        [
            &mut timed(
                || course.index.clone(),
                |index| {
                    for &key in keys {
                        index.handle = library::delete(index.handle, key, &mut index.pools).handle;
                    }
                    black_box(index);
                },
            ),
            &mut timed(
                || course.map.clone(),
                |map| {
                    for key in keys {
                        map.remove(key);
                    }
                    black_box(map);
                },
            ),
            &mut timed(
                || course.array.clone(),
                |array| {
                    for &key in keys {
                        if let Ok(at) = find(&array, key) {
                            array.remove(at);
                        }
                    }
                    black_box(array);
                },
            ),
        ],
    );
    report.row("delete", course.held.len(), times);
}

/// Where inserts begin: an index and the keys in it, rising.
struct Beginning {
    index: Index,
    keys: Vec<u64>,
}

/// Loaded with so many keys that the absent ones make as many as are held.
fn loaded_for(course: &Course) -> Beginning {
    let many = course.held.len() - course.absent.len();
    let mut keys = course.held[..many].to_vec();
    keys.sort_unstable();
    let index = Index::new(course.held.len() as u64, &keys);
    Beginning { index, keys }
}

/// Nothing, in the largest pools.
fn nothing_for(course: &Course) -> Beginning {
    let (records, slots) = (*RECORDS.end() as usize, *SLOTS.end() as usize);
    Beginning {
        index: Index::empty(course.held.len() as u64, records, slots),
        keys: Vec::new(),
    }
}

/// Nothing, in the least pools, in steps of a fifth of what a load of the keys needs, in which every
/// insert is done.
fn nothing_barely_for(course: &Course) -> Beginning {
    let capacity = course.held.len() as u64;
    let (records, slots) = need(&course.sorted());
    let fifths = |size: usize, most: u64, n: usize| (size * n / 5 + 64).min(most as usize);
    let index = (5..=40)
        .map(|n| {
            let records = fifths(records, *RECORDS.end(), n);
            Index::empty(capacity, records, fifths(slots, *SLOTS.end(), n))
        })
        .find(|start| {
            let mut index = start.clone();
            let mut keys = course.held.iter();
            keys.all(|&key| index.insert(key).number == DONE)
        })
        .expect("the largest pools are enough");
    let keys = Vec::new();
    Beginning { index, keys }
}

fn inserts(report: &mut Report, course: &Course) {
    let new = &course.absent;
    insert_row(report, "insert", course, &loaded_for(course), new);
}

fn inserts_one_by_one(report: &mut Report, course: &Course) {
    let new = &course.held;
    insert_row(
        report,
        "insert, from nothing on",
        course,
        &nothing_for(course),
        new,
    );
}

fn inserts_barely(report: &mut Report, course: &Course) {
    let (what, new) = ("insert, barely enough room", &course.held);
    insert_row(report, what, course, &nothing_barely_for(course), new);
}

fn insert_row(report: &mut Report, what: &str, course: &Course, from: &Beginning, new: &[u64]) {
    report.row(what, course.held.len(), insert_times(from, new));
    let longest = longest(from.index.clone(), new);
    let keys = grouped(course.held.len() as u64);
    report
        .inserts
        .push(format!("| {what} | {keys} | {longest} |"));
}

/// Few keys go into several copies in one turn, so that it is not too short.
fn insert_times(from: &Beginning, new: &[u64]) -> Three {
    let copies = 64usize.div_ceil(new.len());
    let array: Vec<(u64, u64)> = from.keys.iter().map(|&key| (key, key)).collect();
    let map: BTreeMap<u64, u64> = array.iter().copied().collect();
    let mut ours = timed(
        || vec![from.index.clone(); copies],
        |copies| {
            for index in copies.iter_mut() {
                for &key in new {
                    index.insert(key);
                }
                let full = index.handle.count == index.handle.capacity;
                assert!(full, "there is room");
            }
        },
    );
    let mut of_map = timed(
        || vec![map.clone(); copies],
        |copies| {
            for map in copies.iter_mut() {
                for &key in new {
                    map.insert(key, key);
                }
            }
            black_box(copies);
        },
    );
    let mut of_array = timed(
        || vec![array.clone(); copies],
        |copies| {
            for array in copies.iter_mut() {
                for &key in new {
                    if let Err(at) = find(array, key) {
                        array.insert(at, (key, key));
                    }
                }
            }
            black_box(copies);
        },
    );
    let calls = copies * new.len();
    in_turns(calls, [&mut ours, &mut of_map, &mut of_array])
}

/// The pools, the longest of the inserts, and how many of them tidied or put it off.
fn longest(mut index: Index, new: &[u64]) -> String {
    let (mut longest, mut conflicts, mut tidyings) = (0.0f64, 0, [0; 4]);
    for &key in new {
        let start = Instant::now();
        let inserted = index.insert(key);
        longest = longest.max(start.elapsed().as_secs_f64() * 1e6);
        conflicts += inserted.conflict;
        tidyings[inserted.tidying as usize] += 1;
    }
    let Handle { records, slots, .. } = index.handle;
    let [records, slots, conflicts] = [records, slots, conflicts].map(grouped);
    let longest = grouped(longest as u64);
    let [_, tidied, put_off, whole] = tidyings;
    format!("{records} | {slots} | {longest} µs | {conflicts} | {tidied} | {put_off} | {whole}")
}

/// One turn: its time in nanoseconds, without that of what is made ready before and let go after.
fn timed<Ready>(
    mut ready: impl FnMut() -> Ready,
    mut work: impl FnMut(&mut Ready),
) -> impl FnMut() -> f64 {
    move || {
        let mut made = ready();
        let start = Instant::now();
        work(&mut made);
        start.elapsed().as_secs_f64() * 1e9
    }
}

fn each<'a>(keys: &'a [u64], mut call: impl FnMut(u64) + 'a) -> impl FnMut() -> f64 + 'a {
    timed(|| (), move |()| keys.iter().for_each(|&key| call(key)))
}

/// The least time of one of so many calls, over the turns.
fn in_turns(calls: usize, mut three: [&mut dyn FnMut() -> f64; 3]) -> Three {
    let (mut least, start) = ([f64::INFINITY; 3], Instant::now());
    for _ in 0..REPEATS {
        for (turn, least) in three.iter_mut().zip(&mut least) {
            *least = least.min(turn());
        }
        if start.elapsed().as_secs_f64() * 1e9 > LONG_ENOUGH {
            break;
        }
    }
    least.map(|time| time / calls as f64)
}

fn in_words(nanoseconds: f64) -> String {
    match nanoseconds {
        n if n < 1e4 => format!("{n:.1} ns"),
        n if n < 1e7 => format!("{:.1} µs", n / 1e3),
        n => format!("{:.1} ms", n / 1e6),
    }
}

/// In groups of three digits.
fn grouped(number: u64) -> String {
    if number < 1_000 {
        return number.to_string();
    }
    format!("{},{:03}", grouped(number / 1_000), number % 1_000)
}
