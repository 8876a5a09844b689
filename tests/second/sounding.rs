//! The key of a sounding (document 01, "What the index holds").

/// Depths in centimetres, negative where it dries.
pub const LEAST_DEPTH: i64 = -20_000;
pub const MOST_DEPTH: i64 = 1_028_575;
pub const MOST_NUMBER: u64 = 268_435_455;

/// (depth + 20,000) x 2^28 + number, or nothing where one of them is out of range.
pub fn key_of(depth: i64, number: u64) -> Option<u64> {
    if depth < LEAST_DEPTH || depth > MOST_DEPTH || number > MOST_NUMBER {
        return None;
    }
    let key = (i128::from(depth) + 20_000) * 268_435_456 + i128::from(number);
    Some(u64::try_from(key).expect("a key is below 2^48"))
}
