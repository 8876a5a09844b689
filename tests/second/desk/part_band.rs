//! Cases for band on all memories, sound and damaged: from one key to another, with no room, room
//! for one, exactly enough, one less and plenty.

use super::compared::{Both, Compared};
use super::memories::{self, Memory};
use crate::model::KEY_END;
use crate::random::Random;
use crate::store::answers::*;

pub fn compare(compared: &mut Compared, random: &mut Random) {
    let mut both = Both::default();
    let mut with_more = 0;
    memories::each(random, &mut |memory, random| {
        compared.about.clone_from(&memory.about);
        both.set(&memory.store.mem);
        with_more += all_keys(compared, &mut both, memory);
        for _ in 0..3 {
            let ends = two_ends(memory, random);
            with_more += around_enough(compared, &mut both, memory, ends);
        }
        refused(compared, &mut both, memory, random);
    });
    compared.must_reach("band", &[DONE, SIZE, RANGE, REVERSED, DAMAGE]);
    println!("  band with more than was listed: {with_more}");
}

fn two_ends(memory: &Memory, random: &mut Random) -> (u64, u64) {
    let (u, v) = (memory.a_key(random), memory.a_key(random));
    (u.min(v), u.max(v))
}

/// All keys, into plenty of room and none.
fn all_keys(compared: &mut Compared, both: &mut Both, memory: &Memory) -> u64 {
    let (handle, ends) = (memory.store.handle, (0, KEY_END - 1));
    compared.band(both, handle, ends, [60; 2]);
    compared.band(both, handle, ends, [0; 2]).0.more
}

/// Room for all, for just all, for one less and for one. Gives how often more was said to remain.
fn around_enough(
    compared: &mut Compared,
    both: &mut Both,
    memory: &Memory,
    ends: (u64, u64),
) -> u64 {
    let handle = memory.store.handle;
    let (all, ..) = compared.band(both, handle, ends, [60; 2]);
    let enough = all.count as usize;
    let mut rooms = vec![enough, 1];
    if enough > 0 {
        rooms.push(enough - 1);
    }
    let more = rooms
        .into_iter()
        .map(|room| compared.band(both, handle, ends, [room; 2]).0.more);
    more.sum()
}

/// Refused with 1, 2 and 3, one before the other.
fn refused(compared: &mut Compared, both: &mut Both, memory: &Memory, random: &mut Random) {
    let handle = memory.store.handle;
    let (u, v) = two_ends(memory, random);
    let ends = match random.below(6) {
        0 => (v + 1, u),
        1 => (KEY_END, v),
        2 => (u, KEY_END),
        3 => (u64::MAX, KEY_END),
        4 => (KEY_END, 0),
        _ => (u, v),
    };
    let unequal = [[0, 1], [1, 0], [5, 4], [3, 3]][random.below(4) as usize];
    compared.band(both, handle, ends, unequal);
    compared.band(both, handle, ends, [3, 3]);
}
