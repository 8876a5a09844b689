//! The walk of a band: "in each node, the slots from that of u to that of v", stopping "at the
//! first element beyond the output's room" (document 01, "The calls"). All keys read have to rise,
//! also those outside u to v, and no more nodes may be read than records exist.

use super::pools::{Mem, Slot, MOST_PATH};
use super::walk::{node_at, slot_at, Damage};

/// What a band lists.
#[derive(Clone, Debug, Default)]
pub struct Listing {
    pub keys: Vec<u64>,
    pub payloads: Vec<u64>,
    pub more: bool,
}

/// Whether the walk goes on.
#[derive(Clone, Copy, PartialEq, Eq)]
enum Walk {
    On,
    Stopped,
}

struct BandWalk<'a> {
    mem: &'a Mem,
    u: u64,
    v: u64,
    room: usize,
    listing: Listing,
    nodes_read: u64,
    last_key: Option<u64>,
}

pub fn list(mem: &Mem, root: u64, u: u64, v: u64, room: usize) -> Result<Listing, Damage> {
    let mut walk = BandWalk {
        mem,
        u,
        v,
        room,
        listing: Listing::default(),
        nodes_read: 0,
        last_key: None,
    };
    walk.node(root, 1)?;
    Ok(walk.listing)
}

impl BandWalk<'_> {
    /// A node that is the depth-th of its path.
    fn node(&mut self, number: u64, depth: usize) -> Result<Walk, Damage> {
        self.nodes_read += 1;
        if depth > MOST_PATH || self.nodes_read > self.mem.records() {
            return Err(Damage);
        }
        let node = node_at(self.mem, number)?;
        for slot in node.slot_of(self.u)..=node.slot_of(self.v) {
            let walk = match slot_at(self.mem, &node, slot)? {
                Slot::Null => Walk::On,
                Slot::Data { key, payload } => self.data(key, payload)?,
                Slot::Node { record } => self.node(record, depth + 1)?,
            };
            if walk == Walk::Stopped {
                return Ok(walk);
            }
        }
        Ok(Walk::On)
    }

    fn data(&mut self, key: u64, payload: u64) -> Result<Walk, Damage> {
        if self.last_key.is_some_and(|last| key <= last) {
            return Err(Damage);
        }
        self.last_key = Some(key);
        if key < self.u || key > self.v {
            return Ok(Walk::On);
        }
        if self.listing.keys.len() == self.room {
            self.listing.more = true;
            return Ok(Walk::Stopped);
        }
        self.listing.keys.push(key);
        self.listing.payloads.push(payload);
        Ok(Walk::On)
    }
}
