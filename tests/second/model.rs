//! Slots and models by plain counting (document 01, "From key to slot"), in whole numbers wide
//! enough that nothing can wrap.

/// Keys are below this.
pub const KEY_END: u64 = 281_474_976_710_656;
/// A key list has at most this many keys.
pub const MOST_KEYS: usize = 16_384;
/// A key in a list of bytes.
pub const KEY_BYTES: usize = 6;

/// A node has this many slots at least and at most.
pub const LEAST_SLOTS: u64 = 4;
pub const MOST_SLOTS: u64 = 4_096;

#[derive(Clone, Copy, Debug, PartialEq, Eq)]
pub struct Model {
    pub l: u64,
    pub t: u64,
    pub lo: u64,
    pub w: u64,
}

#[derive(Clone, Copy, Debug, PartialEq, Eq)]
pub enum SlotChoice {
    Slot(u64),
    KeyOutOfRange,
    ModelOutOfRange,
}

#[derive(Clone, Copy, Debug, PartialEq, Eq)]
pub enum ModelChoice {
    Model(Model),
    BadLength,
    NotRising { place: u64 },
}

/// The slot of a key where lo, W and L are in range.
pub fn slot_of(key: u64, lo: u64, w: u64, l: u64) -> u64 {
    if key < lo {
        return 0;
    }
    let (distance, width) = (u128::from(key - lo), u128::from(w));
    if distance >= width {
        return l - 1;
    }
    1 + (distance * u128::from(l - 2) / width) as u64
}

pub fn in_range(lo: u64, w: u64, l: u64) -> bool {
    let end = u128::from(lo) + u128::from(w);
    (LEAST_SLOTS..=MOST_SLOTS).contains(&l) && w >= 1 && end <= u128::from(KEY_END)
}

pub fn slot_choice(key: u64, lo: u64, w: u64, l: u64) -> SlotChoice {
    if key >= KEY_END {
        SlotChoice::KeyOutOfRange
    } else if !in_range(lo, w, l) {
        SlotChoice::ModelOutOfRange
    } else {
        SlotChoice::Slot(slot_of(key, lo, w, l))
    }
}

/// L of a node over one key or more.
pub fn slots_for(n: usize) -> u64 {
    (2 * n as u64).clamp(LEAST_SLOTS, MOST_SLOTS)
}

/// The model over rising keys if T were this.
pub fn model_with(keys: &[u64], t: usize) -> Model {
    let n = keys.len();
    let (lo, hi) = (keys[t], keys[n - 1 - t]);
    Model {
        l: slots_for(n),
        t: t as u64,
        lo,
        w: hi - lo + 1,
    }
}

/// The test of T: no slot gets more than T of the keys.
pub fn holds(keys: &[u64], t: usize) -> bool {
    let model = model_with(keys, t);
    let mut counts = vec![0; model.l as usize];
    for &key in keys {
        counts[slot_of(key, model.lo, model.w, model.l) as usize] += 1;
    }
    counts.iter().all(|&count| count <= t)
}

/// The model of a node built over rising keys.
pub fn model_of(keys: &[u64]) -> Model {
    match keys.len() {
        0 => Model {
            l: 64,
            t: 0,
            lo: 0,
            w: KEY_END,
        },
        1 | 2 => model_with(keys, 0),
        n => {
            let least = (1..=(n - 1) / 2).find(|&t| holds(keys, t));
            model_with(keys, least.expect("document 01: such a T always exists"))
        }
    }
}

/// The place of the first key that is not above its forerunner.
pub fn first_not_rising(keys: &[u64]) -> Option<usize> {
    (1..keys.len()).find(|&place| keys[place] <= keys[place - 1])
}

/// Model choice on a list of bytes.
pub fn model_choice(bytes: &[u8]) -> ModelChoice {
    if bytes.len() % KEY_BYTES != 0 || bytes.len() / KEY_BYTES > MOST_KEYS {
        return ModelChoice::BadLength;
    }
    let keys = keys_from(bytes);
    match first_not_rising(&keys) {
        Some(place) => ModelChoice::NotRising {
            place: place as u64,
        },
        None => ModelChoice::Model(model_of(&keys)),
    }
}

/// Keys of 6 bytes each, lowest byte first; bytes that make no whole key are left out.
pub fn keys_from(bytes: &[u8]) -> Vec<u64> {
    let key = |six: &[u8]| {
        six.iter()
            .rev()
            .fold(0, |key, &byte| key * 256 + u64::from(byte))
    };
    bytes.chunks_exact(KEY_BYTES).map(key).collect()
}

/// The other way round.
pub fn bytes_from(keys: &[u64]) -> Vec<u8> {
    keys.iter()
        .flat_map(|key| key.to_le_bytes().into_iter().take(KEY_BYTES))
        .collect()
}

/// The least key whose slot is that one or a later one; KEY_END where no key gets so far.
pub fn first_key_at(slot: u64, lo: u64, w: u64, l: u64) -> u64 {
    let (mut below, mut reached) = (0, KEY_END);
    while below < reached {
        let middle = below + (reached - below) / 2;
        if slot_of(middle, lo, w, l) >= slot {
            reached = middle;
        } else {
            below = middle + 1;
        }
    }
    reached
}
