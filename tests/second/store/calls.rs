//! Load, lookup, replace, delete and band (document 01, "The calls"), with the order of refusals
//! of "Numbers of the answers". A refused call stores nothing.

use super::answers::*;
use super::band;
use super::build;
use super::marks::Marks;
use super::pools::{Mem, Slot, CAPACITY};
use super::walk::{follow, Path};
use crate::model::KEY_END;

/// The sounding of a key, the other way round from packing.
pub fn unpack(key: u64) -> Sounding {
    if key >= KEY_END {
        return Sounding {
            number: RANGE,
            ..Sounding::default()
        };
    }
    let deeper = i64::try_from(key / 268_435_456).expect("a key is below 2^48");
    Sounding {
        number: DONE,
        depth: deeper - 20_000,
        sounding: key % 268_435_456,
    }
}

/// "takes rising keys with payloads, treats the pools as empty, and builds"
pub fn load(capacity: u64, keys: &[u64], payloads: &[u64], mem: &mut Mem) -> Loaded {
    let refused = |number, place| Loaded {
        number,
        place,
        handle: Handle::default(),
    };
    if !CAPACITY.contains(&capacity) || !mem.sizes_in_limits() || keys.len() != payloads.len() {
        return refused(SIZE, 0);
    }
    if keys.len() as u64 > capacity {
        return refused(FULL, 0);
    }
    if let Some((number, place)) = first_fault(keys) {
        return refused(number, place);
    }
    let (records, slots) = (mem.records(), mem.slot_count());
    let Some(plan) = build::plan(&mut Marks::empty(records, slots), keys, payloads) else {
        return refused(NO_ROOM, 0);
    };
    *mem = Mem::zeros(records as usize, slots as usize);
    plan.store(mem);
    Loaded {
        number: DONE,
        place: 0,
        handle: Handle {
            root: plan.top(),
            count: keys.len() as u64,
            capacity,
            records,
            slots,
        },
    }
}

/// "the first place with 2 or 4 (2 wins at one place)": 4 returns the place, 2 nothing.
fn first_fault(keys: &[u64]) -> Option<(u64, u64)> {
    (0..keys.len()).find_map(|place| {
        if keys[place] >= KEY_END {
            Some((RANGE, 0))
        } else if place > 0 && keys[place] <= keys[place - 1] {
            Some((NOT_RISING, place as u64))
        } else {
            None
        }
    })
}

/// 1, 2 and 9 on the path, which every call on one key answers first.
fn path_to(handle: &Handle, key: u64, mem: &Mem) -> Result<Path, u64> {
    if !mem.fits(handle) {
        return Err(SIZE);
    }
    if key >= KEY_END {
        return Err(RANGE);
    }
    follow(mem, handle.root, key).map_err(|_| DAMAGE)
}

/// "follows slots from the root and returns the payload with the count of nodes visited"
pub fn lookup(handle: Handle, key: u64, mem: &Mem) -> Looked {
    let answer = |number, payload, visits| Looked {
        number,
        payload,
        visits,
    };
    match path_to(&handle, key, mem) {
        Err(number) => answer(number, 0, 0),
        Ok(path) => match path.payload_of(key) {
            None => answer(NOT_HELD, 0, path.visits()),
            Some(payload) => answer(DONE, payload, path.visits()),
        },
    }
}

/// The path to a key that is held, or the answer that refuses the change.
fn path_to_held(handle: &Handle, key: u64, mem: &Mem) -> Result<Path, Changed> {
    let path = path_to(handle, key, mem).map_err(|number| changed(number, 0, *handle))?;
    match path.payload_of(key) {
        None => Err(changed(NOT_HELD, path.visits(), *handle)),
        Some(_) => Ok(path),
    }
}

fn changed(number: u64, visits: u64, handle: Handle) -> Changed {
    Changed {
        number,
        visits,
        handle,
    }
}

/// "overwrites a payload"
pub fn replace(handle: Handle, key: u64, payload: u64, mem: &mut Mem) -> Changed {
    match path_to_held(&handle, key, mem) {
        Err(refusal) => refusal,
        Ok(path) => {
            mem.put_payload(path.last().place(), payload);
            changed(DONE, 0, handle)
        }
    }
}

/// "makes the slot NULL and lowers the count of keys; counters and nodes stay"
pub fn delete(handle: Handle, key: u64, mem: &mut Mem) -> Changed {
    match path_to_held(&handle, key, mem) {
        Err(refusal) => refusal,
        Ok(_) if handle.count == 0 => changed(DAMAGE, 0, handle),
        Ok(path) => {
            mem.put_slot(path.last().place(), Slot::Null);
            let count = handle.count - 1;
            changed(DONE, 0, Handle { count, ..handle })
        }
    }
}

/// "lists elements with u <= key <= v in key order into the lent output, as many as fit"
pub fn band(
    handle: Handle,
    u: u64,
    v: u64,
    mem: &Mem,
    keys: &mut [u64],
    payloads: &mut [u64],
) -> Listed {
    let refused = |number| Listed {
        number,
        count: 0,
        more: 0,
    };
    if !mem.fits(&handle) || keys.len() != payloads.len() {
        return refused(SIZE);
    }
    if u >= KEY_END || v >= KEY_END {
        return refused(RANGE);
    }
    if u > v {
        return refused(REVERSED);
    }
    let Ok(listing) = band::list(mem, handle.root, u, v, keys.len()) else {
        return refused(DAMAGE);
    };
    let count = listing.keys.len();
    keys[..count].copy_from_slice(&listing.keys);
    payloads[..count].copy_from_slice(&listing.payloads);
    Listed {
        number: DONE,
        count: count as u64,
        more: u64::from(listing.more),
    }
}
