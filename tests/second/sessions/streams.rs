//! Inputs of sessions, by kinds of stream: operations over keys that lie in some way, in phases that
//! grow, shrink, change or only ask, and sequences made to reach long paths, full pools and nodes
//! that are due again and again.

use crate::desk::stores::shuffled;
use crate::lists::{self, Shape};
use crate::model::KEY_END;
use crate::random::Random;
use crate::sounding;

/// Appends about so many operations.
pub type Kind = fn(&mut Script, u64, &mut Random);

pub const KINDS: [(&str, Kind); 14] = [
    ("uniform", |s, n, r| mixed(s, n, lists::uniform, r)),
    ("clustered", |s, n, r| mixed(s, n, lists::clusters, r)),
    ("the drying end crowded", |s, n, r| {
        mixed(s, n, drying_end, r)
    }),
    ("soundings", |s, n, r| mixed(s, n, lists::soundings, r)),
    ("nested clusters", |s, n, r| {
        mixed(s, n, lists::nested_clusters, r)
    }),
    ("power-of-two gaps", |s, n, r| {
        mixed(s, n, lists::powers_of_two, r)
    }),
    ("around one key", |s, n, r| {
        mixed(s, n, lists::around_one_key, r)
    }),
    ("edges of keys", |s, n, r| mixed(s, n, edges, r)),
    ("long paths", long_paths),
    ("full pools", full_pools),
    ("long paths in full pools", long_paths_in_full_pools),
    ("deletes", deletes),
    ("in turn", in_turn),
    ("bands", bands),
];

/// The bytes of an input while it is written.
#[derive(Default)]
pub struct Script {
    pub bytes: Vec<u8>,
    operations: u64,
}

impl Script {
    fn put(&mut self, kind: u8, key: u64) {
        assert!(key < KEY_END, "keys have 6 bytes");
        self.bytes.push(kind);
        self.key(key);
        self.operations += 1;
    }

    fn key(&mut self, key: u64) {
        self.bytes.extend_from_slice(&key.to_le_bytes()[..6]);
    }

    pub fn insert(&mut self, key: u64, payload: u64) {
        self.put(1, key);
        self.bytes.extend_from_slice(&payload.to_le_bytes());
    }

    pub fn delete(&mut self, key: u64) {
        self.put(2, key);
    }

    pub fn lookup(&mut self, key: u64) {
        self.put(3, key);
    }

    pub fn band(&mut self, u: u64, v: u64) {
        self.put(4, u);
        self.key(v);
    }

    pub fn replace(&mut self, key: u64, payload: u64) {
        self.put(5, key);
        self.bytes.extend_from_slice(&payload.to_le_bytes());
    }
}

/// Of any length in decimal, those where it changes included.
pub fn payload(random: &mut Random) -> u64 {
    match random.below(8) {
        0 => 0,
        1 => u64::MAX,
        2 => 10u64.pow(random.below(20) as u32) - random.below(2),
        _ => random.any() >> random.below(64),
    }
}

/// Soundings that dry, most of them near the least depth there is.
fn drying_end(n: usize, random: &mut Random) -> Vec<u64> {
    let deepest = random.between(1, 14);
    let bits = random.between(6, 28);
    let mut keys: Vec<u64> = (0..n)
        .map(|_| {
            let depth = random.of_bits(deepest).min(20_000) as i64 - 20_000;
            sounding::key_of(depth, random.of_bits(bits)).expect("in range")
        })
        .collect();
    keys.sort_unstable();
    keys.dedup();
    keys
}

/// The least and the greatest keys, and those where a byte or a decimal place is full.
fn edges(n: usize, random: &mut Random) -> Vec<u64> {
    let mut keys: Vec<u64> = (0..n)
        .map(|_| {
            let near = match random.below(5) {
                0 => 0,
                1 => KEY_END - 1,
                2 => 10u64.pow(random.below(15) as u32),
                3 => 1 << random.below(48),
                _ => (1 << (8 * random.between(1, 5))) * random.between(1, 255),
            };
            let away = random.of_bits(6);
            let key = if random.one_in(2) {
                near.saturating_sub(away)
            } else {
                near + away
            };
            key.min(KEY_END - 1)
        })
        .collect();
    keys.sort_unstable();
    keys.dedup();
    keys
}

/// How often in a hundred a phase inserts, deletes, looks up, lists and replaces.
type Mix = [u64; 5];
const GROWING: Mix = [60, 4, 22, 4, 10];
const CHANGING: Mix = [32, 32, 22, 4, 10];
const SHRINKING: Mix = [6, 62, 20, 4, 8];
const ASKING: Mix = [4, 4, 62, 8, 22];
const FILLING: Mix = [90, 0, 6, 1, 3];

/// Keys to draw from, and which of them are held, as far as no insert was refused.
struct Drawn<'a> {
    script: &'a mut Script,
    keys: Vec<u64>,
    held: Vec<bool>,
}

impl Drawn<'_> {
    fn new(script: &mut Script, keys: Vec<u64>) -> Drawn<'_> {
        let held = vec![false; keys.len()];
        Drawn { script, keys, held }
    }

    /// A place whose key is held, or is not, as far as one is soon found.
    fn place(&self, held: bool, random: &mut Random) -> usize {
        let mut place = random.below(self.keys.len() as u64) as usize;
        for _ in 0..12 {
            if self.held[place] == held || random.one_in(60) {
                break;
            }
            place = random.below(self.keys.len() as u64) as usize;
        }
        place
    }

    fn phase(&mut self, mix: &Mix, operations: u64, random: &mut Random) {
        for _ in 0..operations {
            self.one(mix, random);
        }
    }

    fn one(&mut self, mix: &Mix, random: &mut Random) {
        let mut at = random.below(mix.iter().sum());
        let kind = mix.iter().position(|&part| {
            let here = at < part;
            at = at.saturating_sub(part);
            here
        });
        match kind.expect("below the sum") {
            0 => {
                let place = self.place(false, random);
                self.held[place] = true;
                self.script.insert(self.keys[place], payload(random));
            }
            1 => {
                let place = self.place(true, random);
                self.held[place] = false;
                self.script.delete(self.keys[place]);
            }
            2 => {
                let key = self.some_key(random);
                self.script.lookup(key);
            }
            3 => self.band(random),
            _ => {
                let key = self.some_key(random);
                self.script.replace(key, payload(random));
            }
        }
    }

    /// Most are held, some are near a key, a few are anywhere.
    fn some_key(&self, random: &mut Random) -> u64 {
        let held = !random.one_in(4);
        let key = self.keys[self.place(held, random)];
        match random.below(12) {
            0 => (key + random.of_bits(24)).min(KEY_END - 1),
            1 => key.saturating_sub(random.of_bits(24)),
            2 => random.below(KEY_END),
            _ => key,
        }
    }

    /// Narrow or wide, one in ten the wrong way round.
    fn band(&mut self, random: &mut Random) {
        let u = self.some_key(random);
        let far = match random.below(4) {
            0 => self.some_key(random).max(u),
            1 => u,
            _ => (u + random.of_bits(47)).min(KEY_END - 1),
        };
        match random.below(20) {
            0 => self.script.band(0, KEY_END - 1),
            1 | 2 if u < far => self.script.band(far, u),
            _ => self.script.band(u, far),
        }
    }
}

/// Phases over keys of one shape, more or fewer than the capacity.
fn mixed(script: &mut Script, operations: u64, shape: Shape, random: &mut Random) {
    let end = script.operations + operations;
    while script.operations < end {
        let many = match random.below(3) {
            0 => random.between(4, 120),
            1 => random.between(120, 500),
            _ => random.between(500, 1_500),
        };
        let mut drawn = Drawn::new(script, shape(many as usize, random));
        for _ in 0..random.between(4, 12) {
            let mix = [GROWING, GROWING, CHANGING, SHRINKING, ASKING][random.below(5) as usize];
            let left = end.saturating_sub(drawn.script.operations);
            drawn.phase(&mix, random.between(1, 900).min(left), random);
        }
        // what is left makes room for other keys, or stays
        if !random.one_in(4) {
            delete_all(&mut drawn, end, random);
        }
    }
}

fn delete_all(drawn: &mut Drawn, end: u64, random: &mut Random) {
    for place in shuffled((0..drawn.keys.len()).collect(), random) {
        if drawn.held[place] && drawn.script.operations < end {
            drawn.held[place] = false;
            drawn.script.delete(drawn.keys[place]);
        }
    }
}

/// Keys that halve the distance to one key, from the far ones to the near: each makes the path of
/// the next one longer.
fn nearer_and_nearer(random: &mut Random) -> Vec<u64> {
    let centre = random.below(KEY_END);
    let side = random.below(3);
    let mut keys = vec![centre];
    for bit in (0..47).rev() {
        let away = 1 << bit;
        let above = match side {
            0 => true,
            1 => false,
            _ => random.one_in(2),
        };
        keys.push(if above {
            (centre + away).min(KEY_END - 1)
        } else {
            centre.saturating_sub(away)
        });
    }
    keys.dedup();
    keys
}

/// One long path after another, until a path has 24 nodes and the whole tree is built afresh.
fn long_paths(script: &mut Script, operations: u64, random: &mut Random) {
    let end = script.operations + operations;
    while script.operations < end {
        one_long_path(script, end, random);
    }
}

fn one_long_path(script: &mut Script, end: u64, random: &mut Random) {
    let keys = nearer_and_nearer(random);
    for &key in &keys {
        script.insert(key, payload(random));
        if random.one_in(3) {
            script.lookup(key);
        }
    }
    for &key in keys.iter().rev() {
        script.lookup(key);
        if random.one_in(3) {
            // beside the last node's keys: a path of 24 nodes that ends at no key
            script.lookup(key ^ 1);
        }
    }
    script.band(keys[0].saturating_sub(1 << random.below(40)), keys[0]);
    if !random.one_in(5) {
        for &key in &shuffled(keys, random) {
            if script.operations < end {
                script.delete(key);
            }
        }
    }
}

/// Filled until every insert is refused with 7 or 8, then emptied in part.
fn full_pools(script: &mut Script, operations: u64, random: &mut Random) {
    let end = script.operations + operations;
    while script.operations < end {
        let shapes: [Shape; 4] = [
            lists::even,
            lists::uniform,
            lists::dense,
            lists::crowded_soundings,
        ];
        let shape = shapes[random.below(4) as usize];
        let mut drawn = Drawn::new(script, shape(random.between(600, 1_200) as usize, random));
        for _ in 0..random.between(1, 3) {
            let left = end.saturating_sub(drawn.script.operations);
            drawn.phase(&FILLING, random.between(500, 1_400).min(left), random);
            let left = end.saturating_sub(drawn.script.operations);
            drawn.phase(&CHANGING, random.between(1, 600).min(left), random);
        }
        delete_all(&mut drawn, end, random);
    }
}

/// Long paths where most places are taken, so that a whole tree finds no room.
fn long_paths_in_full_pools(script: &mut Script, operations: u64, random: &mut Random) {
    let end = script.operations + operations;
    while script.operations < end {
        let keys = lists::uniform(random.between(100, 420) as usize, random);
        let mut drawn = Drawn::new(script, keys);
        let many = drawn.keys.len() as u64;
        drawn.phase(&FILLING, many, random);
        for _ in 0..random.between(1, 4) {
            one_long_path(drawn.script, end, random);
        }
        delete_all(&mut drawn, end, random);
    }
}

/// Few inserts and many deletes, of keys held and of keys not held.
fn deletes(script: &mut Script, operations: u64, random: &mut Random) {
    let end = script.operations + operations;
    while script.operations < end {
        let many = random.between(10, 800) as usize;
        let shape = lists::SHAPES[random.below(lists::SHAPES.len() as u64) as usize].1;
        let mut drawn = Drawn::new(script, shape(many, random));
        let left = end.saturating_sub(drawn.script.operations);
        drawn.phase(&FILLING, (many as u64).min(left), random);
        for _ in 0..random.between(1, 4) {
            let left = end.saturating_sub(drawn.script.operations);
            drawn.phase(&SHRINKING, random.between(1, 500).min(left), random);
        }
        delete_all(&mut drawn, end, random);
    }
}

/// A few keys, deleted and inserted in turn, so that nodes are due though nothing grows.
fn in_turn(script: &mut Script, operations: u64, random: &mut Random) {
    let end = script.operations + operations;
    while script.operations < end {
        let keys = lists::nested_clusters(random.between(2, 60) as usize, random);
        for &key in &keys {
            script.insert(key, payload(random));
        }
        for _ in 0..random.between(20, 600) {
            let key = keys[random.below(keys.len() as u64) as usize];
            let near = (key ^ random.of_bits(4)).min(KEY_END - 1);
            script.delete(key);
            script.insert(if random.one_in(3) { near } else { key }, payload(random));
            if random.one_in(5) {
                script.lookup(near);
            }
        }
        script.band(0, KEY_END - 1);
        if random.one_in(2) {
            keys.iter().for_each(|&key| script.delete(key));
        }
    }
}

/// Lists shorter, as long and longer than the output, at every width, and the wrong way round.
fn bands(script: &mut Script, operations: u64, random: &mut Random) {
    let end = script.operations + operations;
    while script.operations < end {
        let shape = lists::SHAPES[random.below(lists::SHAPES.len() as u64) as usize].1;
        let many = random.between(1, 300) as usize;
        let mut drawn = Drawn::new(script, shape(many, random));
        drawn.phase(&FILLING, many as u64, random);
        let keys = drawn.keys.clone();
        for (at, &u) in keys.iter().enumerate().step_by(1 + many / 20) {
            // 62 to 66 elements where all keys are held
            for length in [1, 62, 63, 64, 65, 66] {
                if let Some(&v) = keys.get(at + length - 1) {
                    drawn.script.band(u, v);
                    drawn.script.band(v, u);
                    drawn
                        .script
                        .band(u.saturating_sub(1), (v + 1).min(KEY_END - 1));
                    drawn.script.band((u + 1).min(v), v.saturating_sub(1));
                }
            }
            drawn.phase(&CHANGING, 6, random);
        }
        delete_all(&mut drawn, end, random);
    }
}
