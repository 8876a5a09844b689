//! Cases for lookup, replace and delete on all memories, sound and damaged.

use super::compared::{Both, Compared};
use super::memories::{self, Memory};
use crate::model::KEY_END;
use crate::random::Random;
use crate::store::answers::*;

pub fn compare_lookup(compared: &mut Compared, random: &mut Random) {
    let mut both = Both::default();
    memories::each(random, &mut |memory, random| {
        begin(compared, &mut both, memory);
        for _ in 0..12 {
            let key = memory.a_key(random);
            compared.lookup(&mut both, memory.store.handle, key);
        }
        let outside = a_key_outside(random);
        compared.lookup(&mut both, memory.store.handle, outside);
    });
    compared.must_reach("lookup", &[DONE, SIZE, RANGE, NOT_HELD, DAMAGE]);
}

pub fn compare_replace(compared: &mut Compared, random: &mut Random) {
    let mut both = Both::default();
    memories::each(random, &mut |memory, random| {
        begin(compared, &mut both, memory);
        for _ in 0..6 {
            let (key, payload) = (memory.a_key(random), random.any());
            compared.replace(&mut both, memory.store.handle, key, payload);
        }
        let outside = a_key_outside(random);
        compared.replace(&mut both, memory.store.handle, outside, 1);
    });
    compared.must_reach("replace", &[DONE, SIZE, RANGE, NOT_HELD, DAMAGE]);
}

/// Each delete begins from the memory as it was made, or goes on from the delete before.
pub fn compare_delete(compared: &mut Compared, random: &mut Random) {
    let mut both = Both::default();
    memories::each(random, &mut |memory, random| {
        begin(compared, &mut both, memory);
        let mut handle = memory.store.handle;
        for _ in 0..6 {
            if random.one_in(2) {
                both.set(&memory.store.mem);
                handle = memory.store.handle;
            }
            let key = memory.a_key(random);
            handle = compared.delete(&mut both, handle, key).handle;
        }
        // held or not, with a count of 0
        handle.count = 0;
        compared.delete(&mut both, handle, memory.a_key(random));
        compared.delete(&mut both, handle, a_key_outside(random));
    });
    compared.must_reach("delete", &[DONE, SIZE, RANGE, NOT_HELD, DAMAGE]);
}

fn begin(compared: &mut Compared, both: &mut Both, memory: &Memory) {
    compared.about.clone_from(&memory.about);
    both.set(&memory.store.mem);
}

fn a_key_outside(random: &mut Random) -> u64 {
    match random.below(4) {
        0 => u64::MAX,
        1 => KEY_END + random.of_bits(15),
        _ => KEY_END,
    }
}
