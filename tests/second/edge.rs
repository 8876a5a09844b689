//! The three functions of the C edge, as include/soorqabiye.h declares them, behind safe ones.

#[repr(C)]
#[derive(Clone, Copy, Debug, PartialEq, Eq)]
pub struct Key {
    pub number: u64,
    pub key: u64,
}

#[repr(C)]
#[derive(Clone, Copy, Debug, PartialEq, Eq)]
pub struct Slot {
    pub number: u64,
    pub slot: u64,
}

#[repr(C)]
#[derive(Clone, Copy, Debug, PartialEq, Eq)]
pub struct Model {
    pub number: u64,
    pub place: u64,
    pub l: u64,
    pub t: u64,
    pub lo: u64,
    pub w: u64,
}

extern "C" {
    fn soorqabiye_pack(depth: i64, number: u64) -> Key;
    fn soorqabiye_slot_choice(key: u64, lo: u64, w: u64, l: u64) -> Slot;
    fn soorqabiye_model_choice(keys: *const u8, length: usize) -> Model;
}

pub fn pack(depth: i64, number: u64) -> Key {
    // SAFETY: takes and returns numbers only
    unsafe { soorqabiye_pack(depth, number) }
}

pub fn slot_choice(key: u64, lo: u64, w: u64, l: u64) -> Slot {
    // SAFETY: takes and returns numbers only
    unsafe { soorqabiye_slot_choice(key, lo, w, l) }
}

pub fn model_choice(keys: &[u8]) -> Model {
    // SAFETY: a slice's pointer is never null and points to its length of readable bytes
    unsafe { soorqabiye_model_choice(keys.as_ptr(), keys.len()) }
}
