//! Undamaged stores of all sizes: long sequences of calls, after each of which the words are read
//! anew (see `course`).

use super::compared::Compared;
use super::course::Course;
use super::damage::{self, Change, In};
use super::library;
use super::sound;
use super::stores::{self, payload_of, Sizes, SESSION};
use crate::lists;
use crate::model::KEY_END;
use crate::random::Random;
use crate::store::answers::WHOLE_TREE;
use crate::store::pools::RECORD_WORDS;

const ALL_SIZES: [Sizes; 8] = [
    SESSION,
    sizes(150, 200, 1_600),
    sizes(100, 120, 900),
    sizes(100, 60, 500),
    sizes(60, 20, 300),
    sizes(40, 30, 120),
    sizes(20, 8, 70),
    sizes(3, 2, 8),
];

const fn sizes(capacity: u64, records: usize, slots: usize) -> Sizes {
    Sizes {
        capacity,
        records,
        slots,
    }
}

pub fn compare(compared: &mut Compared, random: &mut Random) {
    for sizes in ALL_SIZES {
        for _ in 0..30 {
            sequence(compared, sizes, random);
        }
    }
    large(compared, random);
    for _ in 0..4 {
        each_bit_noticed(compared, random);
    }
    if library::has("insert") {
        for _ in 0..20 {
            deep(compared, random);
        }
        if compared.times_tidying(1, WHOLE_TREE) == 0 {
            compared.wrong("no whole tree was built afresh");
        }
    }
}

/// Calls on keys drawn from one list.
fn sequence(compared: &mut Compared, sizes: Sizes, random: &mut Random) {
    let Some((mut course, pool)) = begin(compared, sizes, random) else {
        return;
    };
    let steps = 4 * pool.len() as u64;
    for step in 0..steps {
        // now and then many are deleted one after another
        let wanted = if step % 97 > 80 { 5 } else { random.below(9) };
        match wanted {
            0..=4 if library::has("insert") => {
                let key = a_key(&course, &pool, false, random);
                course.insert(compared, key, payload_of(key));
            }
            5 if library::has("delete") => {
                let key = a_key(&course, &pool, true, random);
                course.delete(compared, key);
            }
            6 if library::has("replace") => {
                let key = a_key(&course, &pool, true, random);
                course.replace(compared, key, random.any());
            }
            7 if library::has("band") => {
                let key = a_key(&course, &pool, true, random);
                let far = (key + random.of_bits(47)).min(KEY_END - 1);
                let room = random.below(course.count() + 3) as usize;
                course.band(compared, (key, far), room);
            }
            8 if library::has("lookup") => {
                let key = a_key(&course, &pool, random.one_in(2), random);
                course.lookup(compared, key);
            }
            _ => {}
        }
    }
}

/// A load of some of the keys that the sequence draws from, and these.
fn begin(compared: &mut Compared, sizes: Sizes, random: &mut Random) -> Option<(Course, Vec<u64>)> {
    let n = random.between(1, sizes.capacity * 5 / 4 + 2) as usize;
    let (name, pool) = if random.one_in(2) {
        ("crowded", stores::crowded(n, random))
    } else {
        let (name, shape) = stores::any_shape(random);
        (name, shape(n, random))
    };
    compared.about = format!("{sizes:?}, {name}, {n} keys to draw from");
    let part = random.between(1, 9);
    let first: Vec<u64> = pool
        .iter()
        .copied()
        .filter(|_| random.one_in(part))
        .collect();
    Some((Course::load(compared, sizes, &first)?, pool))
}

/// A key of the pool that is held, or that is not, as far as one is soon found.
fn a_key(course: &Course, pool: &[u64], held: bool, random: &mut Random) -> u64 {
    let any = |random: &mut Random| pool[random.below(pool.len() as u64) as usize];
    let mut key = any(random);
    for _ in 0..20 {
        if course.holds(key) == held || random.one_in(200) {
            break;
        }
        key = any(random);
    }
    key
}

/// The largest stores: full, then a few calls.
fn large(compared: &mut Compared, random: &mut Random) {
    for n in [2_047, 2_048, 16_384] {
        let pool = lists::soundings(n + 4, random);
        let first: Vec<u64> = pool.iter().copied().take(n - 2).collect();
        let sizes = sizes(n as u64, 16_384, 131_072);
        compared.about = format!("{n} soundings");
        let Some(mut course) = Course::load(compared, sizes, &first) else {
            compared.wrong("no room in the largest pools");
        };
        for &key in pool.iter().rev().take(6) {
            if library::has("insert") {
                course.insert(compared, key, payload_of(key));
            }
            if library::has("delete") {
                course.delete(compared, pool[random.below(n as u64) as usize]);
            }
        }
    }
}

/// The reading itself: no bit of a slot, of the map or of a record's L, start and last word can turn
/// over unnoticed. (Other models may send the same keys to the same slots, and counters may differ.)
fn each_bit_noticed(compared: &Compared, random: &mut Random) {
    let sizes = sizes(60, 30, 260);
    let keys = stores::crowded(40, random);
    let Some(store) = stores::grown(sizes, &keys, random) else {
        compared.wrong("no room for 40 keys");
    };
    let right = sound::read(&store.mem, &store.handle);
    let records =
        (0..store.mem.nodes.len()).filter(|word| [2, 3, 7].contains(&(word % RECORD_WORDS)));
    let words = records.map(|word| (In::Nodes, word));
    let words = words.chain((0..store.mem.slots.len()).map(|word| (In::Slots, word)));
    let words = words.chain((0..store.mem.used.len()).map(|word| (In::Used, word)));
    for (list, word) in words {
        for bit in 0..64 {
            let mut mem = store.mem.clone();
            let value = damage::word(&mem, list, word) ^ 1 << bit;
            let change = Change { list, word, value };
            change.make(&mut mem);
            if sound::read(&mem, &store.handle) == right {
                compared.wrong(&format!("{change:?} goes unnoticed"));
            }
        }
    }
}

/// Keys that halve the distance to one key, until a path has 24 nodes, and on.
fn deep(compared: &mut Compared, random: &mut Random) {
    let centre = random.below(KEY_END / 2);
    compared.about = format!("keys ever nearer to {centre}");
    let Some(mut course) = Course::load(compared, sizes(80, 90, 500), &[]) else {
        compared.wrong("no room for nothing");
    };
    course.insert(compared, centre, payload_of(centre));
    for bit in (0..47).rev() {
        let key = centre + (1 << bit);
        course.insert(compared, key, payload_of(key));
    }
}
