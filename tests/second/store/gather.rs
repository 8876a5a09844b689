//! The walk of a rebuild: all nodes and all live keys from one node down, under the rules of a
//! path and those that document 01 has "in a rebuild" besides.

use super::pools::{Mem, Slot, MOST_PATH};
use super::walk::{node_at, slot_at, Damage, Node};

/// What a rebuild reads.
#[derive(Clone, Debug, Default)]
pub struct Gathered {
    pub keys: Vec<u64>,
    pub payloads: Vec<u64>,
    pub nodes: Vec<Node>,
}

impl Gathered {
    /// Puts the new key at its place among those read.
    pub fn with(mut self, key: u64, payload: u64) -> Gathered {
        let place = self.keys.partition_point(|&held| held < key);
        self.keys.insert(place, key);
        self.payloads.insert(place, payload);
        self
    }

    pub fn holds_node(&self, number: u64) -> bool {
        self.nodes.iter().any(|node| node.number == number)
    }
}

struct Gathering<'a> {
    mem: &'a Mem,
    new_key: u64,
    capacity: u64,
    nodes_read: u64,
    gathered: Gathered,
}

/// Everything from the node `top` down, which has `above` nodes before it on its path.
pub fn gather(
    mem: &Mem,
    top: u64,
    above: usize,
    new_key: u64,
    capacity: u64,
) -> Result<Gathered, Damage> {
    let mut gathering = Gathering {
        mem,
        new_key,
        capacity,
        nodes_read: 0,
        gathered: Gathered::default(),
    };
    gathering.node(top, above + 1)?;
    Ok(gathering.gathered)
}

impl Gathering<'_> {
    fn node(&mut self, number: u64, depth: usize) -> Result<(), Damage> {
        self.nodes_read += 1;
        if depth > MOST_PATH || self.nodes_read > self.mem.records() {
            return Err(Damage);
        }
        let node = node_at(self.mem, number)?;
        self.wholly_marked(&node)?;
        self.gathered.nodes.push(node);
        for slot in 0..node.record.l {
            match slot_at(self.mem, &node, slot)? {
                Slot::Null => {}
                Slot::Data { key, payload } => self.data(key, payload)?,
                Slot::Node { record } => self.node(record, depth + 1)?,
            }
        }
        Ok(())
    }

    fn wholly_marked(&self, node: &Node) -> Result<(), Damage> {
        let mut run = (0..node.record.l).map(|slot| node.place(slot));
        if run.all(|place| self.mem.slot_used(place)) {
            Ok(())
        } else {
            Err(Damage)
        }
    }

    fn data(&mut self, key: u64, payload: u64) -> Result<(), Damage> {
        let keys = &mut self.gathered.keys;
        let rises = keys.last().is_none_or(|&last| last < key);
        let with_new_one = keys.len() as u64 + 2;
        if !rises || key == self.new_key || with_new_one > self.capacity {
            return Err(Damage);
        }
        keys.push(key);
        self.gathered.payloads.push(payload);
        Ok(())
    }
}
