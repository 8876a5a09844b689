//! Reading under the rules of damage (document 01, "Numbers of the answers", last paragraph): one
//! node, one slot, and the path of a key from the root (Algorithm 2).

use super::pools::{Mem, Record, Slot, MOST_PATH};
use crate::model::{in_range, slot_of};

/// Something read broke a rule: the call answers 9.
#[derive(Clone, Copy, Debug, PartialEq, Eq)]
pub struct Damage;

/// A node whose record broke no rule.
#[derive(Clone, Copy, Debug)]
pub struct Node {
    pub number: u64,
    pub record: Record,
}

impl Node {
    /// The slot of a key, counted from the start of the node's run.
    pub fn slot_of(&self, key: u64) -> u64 {
        slot_of(key, self.record.lo, self.record.w, self.record.l)
    }

    /// A slot's place in the table of slots.
    pub fn place(&self, slot: u64) -> u64 {
        self.record.start + slot
    }
}

/// "a record not marked used or outside its table, a run outside the slots, lo, W or L out of
/// range"
pub fn node_at(mem: &Mem, number: u64) -> Result<Node, Damage> {
    let record = mem.record(number).ok_or(Damage)?;
    let end = u128::from(record.start) + u128::from(record.l);
    let sound = mem.record_used(number)
        && end <= u128::from(mem.slot_count())
        && in_range(record.lo, record.w, record.l);
    if sound {
        Ok(Node { number, record })
    } else {
        Err(Damage)
    }
}

/// "a kind other than NULL, DATA, NODE, a DATA key .. not belonging in its slot of that node".
/// Only the model of the node that holds the key counts, and nothing else of a NULL or NODE slot
/// is looked at.
pub fn slot_at(mem: &Mem, node: &Node, slot: u64) -> Result<Slot, Damage> {
    let held = mem.slot(node.place(slot)).ok_or(Damage)?;
    match held {
        Slot::Data { key, .. } if node.slot_of(key) != slot => Err(Damage),
        _ => Ok(held),
    }
}

/// A node on a path and the slot that the key takes there.
#[derive(Clone, Copy, Debug)]
pub struct Step {
    pub node: Node,
    pub slot: u64,
}

impl Step {
    pub fn place(&self) -> u64 {
        self.node.place(self.slot)
    }
}

/// From the root to the slot that is not NODE.
#[derive(Clone, Debug)]
pub struct Path {
    pub steps: Vec<Step>,
    /// NULL, or the DATA met: key and payload.
    pub end: Option<(u64, u64)>,
}

impl Path {
    pub fn last(&self) -> &Step {
        self.steps.last().expect("the root is on every path")
    }

    /// The payload, where the path ends at this very key.
    pub fn payload_of(&self, key: u64) -> Option<u64> {
        self.end
            .filter(|&(held, _)| held == key)
            .map(|(_, payload)| payload)
    }

    /// The count of nodes visited.
    pub fn visits(&self) -> u64 {
        self.steps.len() as u64
    }
}

pub fn follow(mem: &Mem, root: u64, key: u64) -> Result<Path, Damage> {
    let mut steps = Vec::new();
    let mut number = root;
    loop {
        if steps.len() == MOST_PATH {
            return Err(Damage);
        }
        let node = node_at(mem, number)?;
        let slot = node.slot_of(key);
        steps.push(Step { node, slot });
        let end = match slot_at(mem, &node, slot)? {
            Slot::Node { record } => {
                number = record;
                continue;
            }
            Slot::Data { key, payload } => Some((key, payload)),
            Slot::Null => None,
        };
        return Ok(Path { steps, end });
    }
}
