//! How long a load of sorted keys takes, beside building a BTreeMap from the same list, and how long a lookup takes, beside the
//! map, binary search in the sorted list and the bare walk; in one run, so that the ratios mean something.

#![allow(dead_code)] // the second program's modules hold more than is measured here

#[path = "../tests/second/lists.rs"]
mod lists;
#[path = "../tests/second/model.rs"]
mod model;
#[path = "../tests/second/random.rs"]
mod random;
#[path = "../tests/second/sounding.rs"]
mod sounding;

use random::Random;
use std::collections::BTreeMap;
use std::hint::black_box;
use std::time::Instant;

#[repr(C)]
#[derive(Clone, Copy)]
struct Handle {
    root: u64,
    count: u64,
    capacity: u64,
    records: u64,
    slots: u64,
}

#[repr(C)]
struct Loaded {
    number: u64,
    place: u64,
    handle: Handle,
}

#[repr(C)]
struct Looked {
    number: u64,
    payload: u64,
    visits: u64,
}

extern "C" {
    fn soorqabiye_load(
        capacity: usize,
        keys: *const u64,
        keys_len: usize,
        payloads: *const u64,
        payloads_len: usize,
        nodes: *mut u64,
        nodes_len: usize,
        slots: *mut u64,
        slots_len: usize,
        used: *mut u64,
        used_len: usize,
    ) -> Loaded;
    fn soorqabiye_lookup(
        handle: Handle,
        key: u64,
        nodes: *const u64,
        nodes_len: usize,
        slots: *const u64,
        slots_len: usize,
        used: *const u64,
        used_len: usize,
    ) -> Looked;
}

/// Pools for so many records and slots.
struct Pools {
    nodes: Vec<u64>,
    slots: Vec<u64>,
    used: Vec<u64>,
}

impl Pools {
    fn new(records: usize, slots: usize) -> Pools {
        Pools {
            nodes: vec![0; records * 8],
            slots: vec![0; slots * 2],
            used: vec![0; (records + slots).div_ceil(64)],
        }
    }

    fn load(&mut self, capacity: usize, keys: &[u64], payloads: &[u64]) -> Loaded {
        unsafe {
            soorqabiye_load(
                capacity,
                keys.as_ptr(),
                keys.len(),
                payloads.as_ptr(),
                payloads.len(),
                self.nodes.as_mut_ptr(),
                self.nodes.len(),
                self.slots.as_mut_ptr(),
                self.slots.len(),
                self.used.as_mut_ptr(),
                self.used.len(),
            )
        }
    }

    fn lookup(&self, handle: Handle, key: u64) -> Looked {
        unsafe {
            soorqabiye_lookup(
                handle,
                key,
                self.nodes.as_ptr(),
                self.nodes.len(),
                self.slots.as_ptr(),
                self.slots.len(),
                self.used.as_ptr(),
                self.used.len(),
            )
        }
    }

    /// The payload of a held key by its walk alone: no call, no handle, no rule and no index tested.
    #[inline(always)]
    fn bare_walk(&self, handle: Handle, key: u64) -> u64 {
        const UNIT: u64 = 1 << 48;
        let (nodes, slots) = (self.nodes.as_ptr(), self.slots.as_ptr());
        let mut record = handle.root as usize;
        loop {
            // sound where the key is held in the pools as a load leaves them
            let [lo, w, l, start] = unsafe { *nodes.add(record * 8).cast::<[u64; 4]>() };
            let slot = if key < lo {
                0
            } else if lo + w <= key {
                l - 1
            } else {
                1 + (key - lo) * (l - 2) / w
            };
            let [word, payload] = unsafe { *slots.add((start + slot) as usize * 2).cast::<[u64; 2]>() };
            if word == UNIT + key {
                return payload;
            }
            record = (word % UNIT) as usize;
        }
    }
}

const REPEATS: usize = 41;

/// The least of the repeats of each, in nanoseconds: what it takes when nothing else disturbs it. They take turns, so that what
/// disturbs one disturbs the others.
fn least<const N: usize>(mut each: [&mut dyn FnMut(); N]) -> [f64; N] {
    let mut least = [f64::INFINITY; N];
    for _ in 0..REPEATS {
        for (once, least) in each.iter_mut().zip(&mut least) {
            let start = Instant::now();
            once();
            *least = least.min(start.elapsed().as_nanos() as f64);
        }
    }
    least
}

/// The payloads of all keys, added up.
#[inline(always)]
fn add_up(keys: &[u64], payload: impl Fn(u64) -> u64) {
    black_box(keys.iter().fold(0u64, |sum, &key| sum.wrapping_add(payload(key))));
}

fn measure(name: &str, keys: &[u64], random: &mut Random) {
    let payloads: Vec<u64> = (0..keys.len() as u64).collect();
    let tree = || BTreeMap::from_iter(keys.iter().copied().zip(payloads.iter().copied()));
    let mut pools = Pools::new(16_384, 131_072);
    let handle = pools.load(16_384, keys, &payloads).handle;
    let [ours, theirs] = least([
        &mut || {
            black_box(pools.load(16_384, black_box(keys), &payloads).number);
        },
        &mut || {
            black_box(tree().len());
        },
    ]);
    println!("load   {name:22} {:6} keys {:9.1} us  BTreeMap {:9.1} us  ratio {:.2}", keys.len(), ours / 1e3, theirs / 1e3, ours / theirs);
    let map = tree();
    let asked: Vec<u64> = (0..100_000).map(|_| keys[random.below(keys.len() as u64) as usize]).collect();
    let each = asked.len() as f64;
    let [ours, theirs, sorted, bare] = least([
        &mut || add_up(&asked, |key| pools.lookup(handle, key).payload),
        &mut || add_up(&asked, |key| map[&key]),
        &mut || add_up(&asked, |key| payloads[keys.binary_search(&key).unwrap()]),
        &mut || add_up(&asked, |key| pools.bare_walk(handle, key)),
    ])
    .map(|time| time / each);
    let visits = asked.iter().map(|&key| pools.lookup(handle, key).visits as f64).sum::<f64>() / each;
    println!(
        "lookup {name:22} {:6} keys {ours:9.1} ns  BTreeMap {theirs:9.1} ns  ratio {:.2}  sorted list {sorted:9.1} ns  ratio {:.2}  \
         bare walk {bare:9.1} ns  nodes visited {visits:.2}",
        keys.len(),
        ours / theirs,
        ours / sorted
    );
}

fn main() {
    let random = &mut Random::new(20_000, 7);
    for n in [512, 4_096, 16_384] {
        measure("uniform", &lists::uniform(n, random), random);
        measure("soundings", &lists::soundings(n, random), random);
    }
}
