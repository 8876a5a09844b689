//! Cases for slot choice: models small, large and out of range, with keys at and around every
//! boundary of each.

use crate::compare::Compared;
use crate::model::{first_key_at, in_range, KEY_END, LEAST_SLOTS, MOST_SLOTS};
use crate::random::Random;

pub fn compare(compared: &mut Compared, random: &mut Random) {
    extreme_models(compared);
    random_models(compared, random);
    bad_models(compared);
    any_numbers(compared, random);
}

fn extreme_models(compared: &mut Compared) {
    let widths = [
        1,
        2,
        3,
        4,
        4_093,
        4_094,
        4_095,
        1 << 24,
        KEY_END / 2,
        KEY_END - 1,
        KEY_END,
    ];
    for w in widths {
        for lo in [
            0,
            1,
            (KEY_END - w) / 2,
            (KEY_END - w).saturating_sub(1),
            KEY_END - w,
        ] {
            for l in [4, 5, 6, 64, MOST_SLOTS - 1, MOST_SLOTS] {
                if in_range(lo, w, l) {
                    around_ends(compared, lo, w, l);
                    around_slots(compared, lo, w, l);
                }
            }
        }
    }
}

fn random_models(compared: &mut Compared, random: &mut Random) {
    for _ in 0..3_000 {
        let w = 1 + random.of_bits(48);
        let lo = random.below(KEY_END - w + 1);
        let l = if random.one_in(20) {
            random.between(LEAST_SLOTS, MOST_SLOTS)
        } else {
            random.between(LEAST_SLOTS, 64)
        };
        around_ends(compared, lo, w, l);
        around_slots(compared, lo, w, l);
        for _ in 0..10 {
            compared.slot(random.below(KEY_END), lo, w, l);
        }
    }
}

/// Keys around lo and lo + W, and the first and last of all, inside the range and out.
fn around_ends(compared: &mut Compared, lo: u64, w: u64, l: u64) {
    for near in [lo, lo.wrapping_add(w)] {
        for key in [near.wrapping_sub(1), near, near.wrapping_add(1)] {
            compared.slot(key, lo, w, l);
        }
    }
    for key in [0, 1, KEY_END - 1, KEY_END, KEY_END + 1, u64::MAX] {
        compared.slot(key, lo, w, l);
    }
}

/// The first key of each slot and the key before it.
fn around_slots(compared: &mut Compared, lo: u64, w: u64, l: u64) {
    for slot in 1..l {
        let first = first_key_at(slot, lo, w, l);
        compared.slot(first, lo, w, l);
        compared.slot(first.wrapping_sub(1), lo, w, l);
    }
}

/// One or more of lo, W and L out of range, lo + W wrapping round among them.
fn bad_models(compared: &mut Compared) {
    let half = 1 << 63;
    let spreads = [
        (0, 1),
        (10, 5),
        (0, KEY_END),
        (0, 0),
        (5, 0),
        (KEY_END, 0),
        (KEY_END, 1),
        (KEY_END - 1, 2),
        (1, KEY_END),
        (0, KEY_END + 1),
        (KEY_END, KEY_END),
        (half, half),
        (half, half + 5),
        (half, half + KEY_END),
        (u64::MAX, 1),
        (u64::MAX, 2),
        (u64::MAX, KEY_END + 1),
        (u64::MAX, u64::MAX),
        (1, u64::MAX),
        (11, u64::MAX),
        (KEY_END, u64::MAX),
        (u64::MAX - KEY_END + 1, KEY_END),
        (u64::MAX, 0),
    ];
    let slots = [
        0,
        1,
        2,
        3,
        4,
        5,
        64,
        4_095,
        4_096,
        4_097,
        1 << 16,
        (1 << 32) + 4,
        half,
        u64::MAX,
    ];
    for (lo, w) in spreads {
        for l in slots {
            around_ends(compared, lo, w, l);
        }
    }
}

/// Numbers of any size in every place.
fn any_numbers(compared: &mut Compared, random: &mut Random) {
    for _ in 0..100_000 {
        let key = random.of_bits(49);
        let lo = random.of_bits(49);
        let w = if random.one_in(8) {
            random.any()
        } else {
            random.of_bits(49)
        };
        let l = if random.one_in(8) {
            random.any()
        } else {
            random.of_bits(13)
        };
        compared.slot(key, lo, w, l);
    }
}
