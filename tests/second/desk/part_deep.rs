//! Inserts at long paths: keys that halve the gap each time, until a path has 24 nodes and the
//! whole tree is built afresh, and due nodes far down a chain, whose tidying may be put off for
//! depth.

use super::compared::{Both, Compared};
use super::crafted::{self, Craft, CHAIN_END, CHAIN_SLOTS};
use super::damage;
use super::memories::below_chain_end;
use super::part_due;
use super::stores::{payload_of, Sizes, Store};
use crate::lists;
use crate::model::KEY_END;
use crate::random::Random;
use crate::store::answers::*;
use crate::store::pools::MOST_PATH;
use crate::store::walk;

/// How often the path of an insert was how long, and whether there was a conflict at its end.
#[derive(Default)]
struct Paths {
    conflict_at_23: u64,
    no_conflict_at_24: u64,
    conflict_at_24: u64,
    put_off_for_depth: u64,
}

pub fn compare(compared: &mut Compared, random: &mut Random) {
    let mut paths = Paths::default();
    for _ in 0..500 {
        if let Some((store, key)) = halving(compared, random, &mut paths) {
            harmed_whole(compared, &store, key, random);
        }
    }
    for above in MOST_PATH - 5..MOST_PATH {
        for _ in 0..700 {
            due_below_chain(compared, above, random, &mut paths);
        }
        for _ in 0..200 {
            wide_below_chain(compared, above, random, &mut paths);
        }
    }
    compared.must_reach("insert", &[DONE, NO_ROOM, DAMAGE]);
    println!("  conflict at a path of 23 nodes: {}", paths.conflict_at_23);
    println!("  no conflict at a path of 24: {}", paths.no_conflict_at_24);
    println!("  conflict at a path of 24: {}", paths.conflict_at_24);
    println!(
        "  put off for depth, with room: {}",
        paths.put_off_for_depth
    );
    let counts = [
        paths.conflict_at_23,
        paths.no_conflict_at_24,
        paths.conflict_at_24,
        paths.put_off_for_depth,
    ];
    if counts.contains(&0) {
        compared.wrong("a length of path was not reached");
    }
}

impl Paths {
    /// Counts the path that an insert is about to take. Says whether it is too long for a conflict.
    fn note(&mut self, both: &Both, handle: &Handle, key: u64) -> bool {
        let Ok(path) = walk::follow(&both.ours, handle.root, key) else {
            return false;
        };
        let end = (path.steps.len(), path.end);
        match end {
            (23, Some(_)) => self.conflict_at_23 += 1,
            (24, None) => self.no_conflict_at_24 += 1,
            (24, Some(_)) => self.conflict_at_24 += 1,
            _ => {}
        }
        matches!(end, (24, Some((met, _))) if met != key)
    }
}

/// Keys ever nearer to one key, from below, above or both, in pools of any size, with deletes now
/// and then. Gives a store and a key whose insert there needs the whole tree afresh.
fn halving(
    compared: &mut Compared,
    random: &mut Random,
    paths: &mut Paths,
) -> Option<(Store, u64)> {
    let sizes = Sizes {
        capacity: random.between(25, 100),
        records: random.between(22, 80) as usize,
        slots: random.between(120, 500) as usize,
    };
    let centre = random.below(KEY_END);
    let first: Vec<u64> = if random.one_in(4) {
        vec![centre]
    } else {
        vec![]
    };
    let mut store = Store::loaded(sizes, &first)?;
    let mut too_deep: Option<(Store, u64)> = None;
    compared.about = format!("{sizes:?}, keys ever nearer to {centre}");
    let mut both = Both::new(&store.mem);
    let below = random.between(0, 4);
    let noise = random.between(1, 12);
    let away = |bit: u64| {
        let more = if random.one_in(noise) {
            random.below(1 << (bit / 2))
        } else {
            0
        };
        (1 << bit) + more
    };
    let aways: Vec<u64> = [0].into_iter().chain((0..47).rev().map(away)).collect();
    for &away in aways.iter().chain(&aways) {
        let key = if random.below(4) < below {
            centre.saturating_sub(away)
        } else {
            (centre + away).min(KEY_END - 1)
        };
        store.mem.clone_from(&both.ours);
        if paths.note(&both, &store.handle, key) {
            too_deep = Some((store.clone(), key));
        }
        let answer = compared.insert(&mut both, store.handle, key, payload_of(key));
        store.handle = answer.handle;
        if away > 0 && random.one_in(9) {
            store.mem.clone_from(&both.ours);
            store.delete(key);
            both.set(&store.mem);
        }
    }
    too_deep
}

/// A whole rebuild in a store with any single field wrong, with few places left, or under a handle
/// whose count or capacity is not the tree's.
fn harmed_whole(compared: &mut Compared, store: &Store, key: u64, random: &mut Random) {
    let changes = damage::single_fields(store);
    let mut both = Both::default();
    for _ in 0..40 {
        let mut harmed = store.clone();
        compared.about = match random.below(4) {
            0 => part_due::leave_few(&mut harmed.mem, random),
            1 => {
                let count = store.handle.count;
                harmed.handle.capacity = count - 2 + random.below(5);
                harmed.handle.count = random.below(harmed.handle.capacity);
                "a handle of another count and capacity".to_string()
            }
            _ => {
                let change = changes[random.below(changes.len() as u64) as usize];
                change.make(&mut harmed.mem);
                format!("{change:?}")
            }
        };
        if random.one_in(3) {
            part_due::junk_in_unused(&mut harmed.mem, random);
        }
        both.set(&harmed.mem);
        compared.insert(&mut both, harmed.handle, key, payload_of(key));
    }
}

/// One node of a chain or of the tree below it due, with plenty of room or little, and at times
/// with some harm done.
fn due_below_chain(compared: &mut Compared, above: usize, random: &mut Random, paths: &mut Paths) {
    let n = random.between(1, 50) as usize;
    let keys = below_chain_end(deep_list(n, random));
    let room = if random.one_in(3) { (3, 12) } else { (60, 400) };
    let mut store = crafted::chain_over(above, &keys, room, random);
    let nodes = damage::nodes_of(&store.mem);
    let due = nodes[random.below(nodes.len() as u64) as usize].0;
    store.mem.put_counters(due, 200, 200);
    let harmed = random.one_in(4);
    if harmed {
        damage::flip_bits(&mut store.mem, random);
    }
    compared.about = format!("{above} nodes above {keys:?}, record {due} due, harmed {harmed}");
    let mut both = Both::new(&store.mem);
    for _ in 0..4 {
        both.set(&store.mem);
        let key = near_a_key(&keys, random);
        paths.note(&both, &store.handle, key);
        compared.insert(&mut both, store.handle, key, payload_of(key));
    }
}

/// A node with a slot for every key it may get, low on its path: built afresh its subtree would be
/// deeper, and too deep there.
fn wide_below_chain(compared: &mut Compared, above: usize, random: &mut Random, paths: &mut Paths) {
    let w = random.between(100, 900);
    let mut craft = Craft::new(above + 80, CHAIN_SLOTS as usize * above + 2_000);
    let chain = crafted::chain(&mut craft, above, random).expect("room for the chain");
    let wide = craft.node(0, w, w + 2).expect("room for the node");
    craft.hang(chain[above - 1], 1, wide);
    let n = random.between(3, 40) as usize;
    let mut keys: Vec<u64> = deep_list(n, random)
        .into_iter()
        .map(|key| key % w)
        .collect();
    keys.sort_unstable();
    keys.dedup();
    for &key in &keys {
        craft.data(wide, key + 1, key);
    }
    let due = if random.one_in(2) {
        wide
    } else {
        chain[above - 1 - random.below(3) as usize]
    };
    craft.mem.put_counters(due, 200, 200);
    let count = keys.len() as u64;
    let store = craft.store(chain[0], count, count + 1 + random.below(2));
    compared.about = format!("{above} nodes above a wide one with {keys:?}, record {due} due");
    let mut both = Both::new(&store.mem);
    for _ in 0..6 {
        both.set(&store.mem);
        let key = random.below(w);
        paths.note(&both, &store.handle, key);
        let answer = compared.insert(&mut both, store.handle, key, payload_of(key));
        paths.put_off_for_depth += u64::from(answer.tidying == PUT_OFF);
    }
}

fn deep_list(n: usize, random: &mut Random) -> Vec<u64> {
    match random.below(3) {
        0 => lists::powers_of_two(n, random),
        1 => lists::around_one_key(n, random),
        _ => lists::nested_clusters(n, random),
    }
}

fn near_a_key(keys: &[u64], random: &mut Random) -> u64 {
    let key = keys[random.below(keys.len() as u64) as usize];
    match random.below(3) {
        0 => (key + random.of_bits(20)) % CHAIN_END,
        1 => key.saturating_sub(random.of_bits(20)),
        _ => random.below(CHAIN_END),
    }
}
