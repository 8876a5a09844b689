//! Cases for key packing: every boundary of depth and number with every other, and random ones.

use crate::compare::Compared;
use crate::random::Random;
use crate::sounding::{LEAST_DEPTH, MOST_DEPTH, MOST_NUMBER};

pub fn compare(compared: &mut Compared, random: &mut Random) {
    for depth in boundary_depths() {
        for number in boundary_numbers() {
            compared.key(depth, number);
        }
    }
    for _ in 0..100_000 {
        compared.key(random_depth(random), random_number(random));
    }
}

fn boundary_depths() -> Vec<i64> {
    let near = [
        LEAST_DEPTH,
        MOST_DEPTH,
        -150,
        0,
        i64::from(i32::MIN),
        i64::from(i32::MAX),
        1 << 32,
    ];
    let mut depths: Vec<i64> = near
        .iter()
        .flat_map(|&depth| depth - 3..=depth + 3)
        .collect();
    depths.extend([
        i64::MIN,
        i64::MIN + 1,
        i64::MAX - 1,
        i64::MAX,
        i64::MIN + 20_000,
    ]);
    depths.extend((0..63).flat_map(|bit| [1 << bit, -(1 << bit)]));
    depths
}

fn boundary_numbers() -> Vec<u64> {
    let near = [3, MOST_NUMBER, u64::from(u32::MAX), 1 << 48];
    let mut numbers: Vec<u64> = near
        .iter()
        .flat_map(|&number| number - 3..=number + 3)
        .collect();
    numbers.extend([u64::MAX, u64::MAX - 1, i64::MAX as u64]);
    numbers.extend((0..64).map(|bit| 1 << bit));
    numbers
}

/// Mostly in range, at times any 64 bits.
fn random_depth(random: &mut Random) -> i64 {
    if random.one_in(5) {
        return random.any() as i64;
    }
    let many = (MOST_DEPTH - LEAST_DEPTH) as u64 + 1;
    LEAST_DEPTH - 100 + random.below(many + 200) as i64
}

fn random_number(random: &mut Random) -> u64 {
    match random.below(5) {
        0 => random.any(),
        1 => random.of_bits(30),
        _ => random.below(MOST_NUMBER + 1),
    }
}
