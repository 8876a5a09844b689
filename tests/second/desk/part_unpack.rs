//! Cases for unpacking: every end of depth and number, and any words.

use super::compared::Compared;
use crate::model::KEY_END;
use crate::random::Random;
use crate::sounding::{key_of, LEAST_DEPTH, MOST_DEPTH, MOST_NUMBER};
use crate::store::answers::{DONE, RANGE};

pub fn compare(compared: &mut Compared, random: &mut Random) {
    for depth in [
        LEAST_DEPTH,
        LEAST_DEPTH + 1,
        -150,
        -1,
        0,
        1,
        MOST_DEPTH - 1,
        MOST_DEPTH,
    ] {
        for number in [0, 1, 7, MOST_NUMBER - 1, MOST_NUMBER] {
            compared.unpack(key_of(depth, number).expect("in range"));
        }
    }
    for near in [3, KEY_END, 1 << 28, 1 << 49, 1 << 63] {
        for key in near - 3..=near + 3 {
            compared.unpack(key);
        }
    }
    for bit in 0..64 {
        compared.unpack(1 << bit);
        compared.unpack(u64::MAX >> bit);
    }
    for _ in 0..20_000 {
        compared.unpack(random.of_bits(50));
        compared.unpack(random.below(KEY_END));
    }
    compared.must_reach("unpack", &[DONE, RANGE]);
}
