//! The functions of libdesk, as include/soorqabiye_desk.h declares them, behind safe ones. A
//! library may have only some of them: those named by `--cfg 'desk="load"'` and so on, or all of
//! them by `--cfg 'desk="all"'`, are linked, and the parts that need another are left out.

#![allow(dead_code, unused_variables)] // what belongs to a call that the library lacks

use super::lent::{Lent, LentScratch, List};
use crate::store::answers::{Changed, Handle, Inserted, Listed, Loaded, Looked, Sounding};

extern "C" {
    fn soorqabiye_unpack(key: u64) -> Sounding;
    fn soorqabiye_load(
        capacity: usize,
        keys: *const u64,
        keys_len: usize,
        payloads: *const u64,
        payloads_len: usize,
        nodes: *mut u64,
        nodes_len: usize,
        slots: *mut u64,
        slots_len: usize,
        used: *mut u64,
        used_len: usize,
    ) -> Loaded;
    fn soorqabiye_lookup(
        handle: Handle,
        key: u64,
        nodes: *const u64,
        nodes_len: usize,
        slots: *const u64,
        slots_len: usize,
        used: *const u64,
        used_len: usize,
    ) -> Looked;
    fn soorqabiye_replace(
        handle: Handle,
        key: u64,
        payload: u64,
        nodes: *const u64,
        nodes_len: usize,
        slots: *mut u64,
        slots_len: usize,
        used: *const u64,
        used_len: usize,
    ) -> Changed;
    fn soorqabiye_delete(
        handle: Handle,
        key: u64,
        nodes: *const u64,
        nodes_len: usize,
        slots: *mut u64,
        slots_len: usize,
        used: *const u64,
        used_len: usize,
    ) -> Changed;
    fn soorqabiye_band(
        handle: Handle,
        u: u64,
        v: u64,
        nodes: *const u64,
        nodes_len: usize,
        slots: *const u64,
        slots_len: usize,
        used: *const u64,
        used_len: usize,
        keys: *mut u64,
        keys_len: usize,
        payloads: *mut u64,
        payloads_len: usize,
    ) -> Listed;
    fn soorqabiye_insert(
        handle: Handle,
        key: u64,
        payload: u64,
        nodes: *mut u64,
        nodes_len: usize,
        slots: *mut u64,
        slots_len: usize,
        used: *mut u64,
        used_len: usize,
        scratch_keys: *mut u64,
        scratch_keys_len: usize,
        scratch_payloads: *mut u64,
        scratch_payloads_len: usize,
        scratch_places: *mut u64,
        scratch_places_len: usize,
    ) -> Inserted;
}

/// Every call of the interface and whether this program is linked with it.
pub const CALLS: [(&str, bool); 7] = [
    ("unpack", cfg!(any(desk = "all", desk = "unpack"))),
    ("load", cfg!(any(desk = "all", desk = "load"))),
    ("lookup", cfg!(any(desk = "all", desk = "lookup"))),
    ("replace", cfg!(any(desk = "all", desk = "replace"))),
    ("delete", cfg!(any(desk = "all", desk = "delete"))),
    ("band", cfg!(any(desk = "all", desk = "band"))),
    ("insert", cfg!(any(desk = "all", desk = "insert"))),
];

pub fn has(call: &str) -> bool {
    CALLS.iter().any(|&(name, there)| name == call && there)
}

fn lacking<Answer>() -> Answer {
    unreachable!("a part asked for a call that the library lacks")
}

// SAFETY, for all: a list's pointer is never null and points to its length of words, and no two
// lists share a word.

pub fn unpack(key: u64) -> Sounding {
    #[cfg(any(desk = "all", desk = "unpack"))]
    return unsafe { soorqabiye_unpack(key) };
    #[cfg(not(any(desk = "all", desk = "unpack")))]
    lacking()
}

pub fn load(capacity: u64, keys: &List, payloads: &List, pools: &mut Lent) -> Loaded {
    #[cfg(any(desk = "all", desk = "load"))]
    return unsafe {
        soorqabiye_load(
            capacity as usize,
            keys.first(),
            keys.len(),
            payloads.first(),
            payloads.len(),
            pools.nodes.first_mut(),
            pools.nodes.len(),
            pools.slots.first_mut(),
            pools.slots.len(),
            pools.used.first_mut(),
            pools.used.len(),
        )
    };
    #[cfg(not(any(desk = "all", desk = "load")))]
    lacking()
}

pub fn lookup(handle: Handle, key: u64, pools: &Lent) -> Looked {
    #[cfg(any(desk = "all", desk = "lookup"))]
    return unsafe {
        soorqabiye_lookup(
            handle,
            key,
            pools.nodes.first(),
            pools.nodes.len(),
            pools.slots.first(),
            pools.slots.len(),
            pools.used.first(),
            pools.used.len(),
        )
    };
    #[cfg(not(any(desk = "all", desk = "lookup")))]
    lacking()
}

pub fn replace(handle: Handle, key: u64, payload: u64, pools: &mut Lent) -> Changed {
    #[cfg(any(desk = "all", desk = "replace"))]
    return unsafe {
        soorqabiye_replace(
            handle,
            key,
            payload,
            pools.nodes.first(),
            pools.nodes.len(),
            pools.slots.first_mut(),
            pools.slots.len(),
            pools.used.first(),
            pools.used.len(),
        )
    };
    #[cfg(not(any(desk = "all", desk = "replace")))]
    lacking()
}

pub fn delete(handle: Handle, key: u64, pools: &mut Lent) -> Changed {
    #[cfg(any(desk = "all", desk = "delete"))]
    return unsafe {
        soorqabiye_delete(
            handle,
            key,
            pools.nodes.first(),
            pools.nodes.len(),
            pools.slots.first_mut(),
            pools.slots.len(),
            pools.used.first(),
            pools.used.len(),
        )
    };
    #[cfg(not(any(desk = "all", desk = "delete")))]
    lacking()
}

pub fn band(
    handle: Handle,
    u: u64,
    v: u64,
    pools: &Lent,
    keys: &mut List,
    payloads: &mut List,
) -> Listed {
    #[cfg(any(desk = "all", desk = "band"))]
    return unsafe {
        soorqabiye_band(
            handle,
            u,
            v,
            pools.nodes.first(),
            pools.nodes.len(),
            pools.slots.first(),
            pools.slots.len(),
            pools.used.first(),
            pools.used.len(),
            keys.first_mut(),
            keys.len(),
            payloads.first_mut(),
            payloads.len(),
        )
    };
    #[cfg(not(any(desk = "all", desk = "band")))]
    lacking()
}

pub fn insert(
    handle: Handle,
    key: u64,
    payload: u64,
    pools: &mut Lent,
    scratch: &mut LentScratch,
) -> Inserted {
    #[cfg(any(desk = "all", desk = "insert"))]
    return unsafe {
        soorqabiye_insert(
            handle,
            key,
            payload,
            pools.nodes.first_mut(),
            pools.nodes.len(),
            pools.slots.first_mut(),
            pools.slots.len(),
            pools.used.first_mut(),
            pools.used.len(),
            scratch.keys.first_mut(),
            scratch.keys.len(),
            scratch.payloads.first_mut(),
            scratch.payloads.len(),
            scratch.places.first_mut(),
            scratch.places.len(),
        )
    };
    #[cfg(not(any(desk = "all", desk = "insert")))]
    lacking()
}
