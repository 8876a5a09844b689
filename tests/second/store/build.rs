//! Building nodes over rising keys (document 01, "From key to slot" and "Where nodes go"). A plan
//! finds every node its place before anything is stored, so that a build without room leaves the
//! pools as they were.

use super::marks::{Marks, Spot};
use super::pools::{Mem, Record, Slot};
use crate::model::{model_of, slot_of, Model};

/// A node with its place, its record and its slots, still to be stored.
#[derive(Clone, Debug)]
pub struct Planned {
    pub number: u64,
    pub record: Record,
    pub slots: Vec<Slot>,
}

/// Nodes in the order in which they took their places; the first is the top.
#[derive(Clone, Debug)]
pub struct Plan {
    pub nodes: Vec<Planned>,
    /// Nodes on the longest path from the top.
    pub depth: usize,
}

impl Plan {
    pub fn top(&self) -> u64 {
        self.nodes[0].number
    }

    pub fn store(&self, mem: &mut Mem) {
        for node in &self.nodes {
            node.store(mem);
        }
    }
}

impl Planned {
    /// Writes the record, all slots of the run, and the marks.
    pub fn store(&self, mem: &mut Mem) {
        mem.put_record(self.number, &self.record);
        mem.mark_record(self.number, true);
        for (place, &slot) in (self.record.start..).zip(&self.slots) {
            mem.put_slot(place, slot);
            mem.mark_slot(place, true);
        }
    }
}

/// Zeros the record and the run of a node and takes their marks away.
pub fn release(mem: &mut Mem, number: u64, start: u64, l: u64) {
    mem.zero_record(number);
    mem.mark_record(number, false);
    for place in start..start + l {
        mem.put_slot(place, Slot::Null);
        mem.mark_slot(place, false);
    }
}

/// The tree over these keys in the unused places of the map, or nothing where there is no room.
/// The places it takes are marked in `marks`.
pub fn plan(marks: &mut Marks, keys: &[u64], payloads: &[u64]) -> Option<Plan> {
    let mut planning = Planning {
        marks,
        nodes: Vec::new(),
    };
    let (_, depth) = planning.node(keys, payloads)?;
    let nodes = planning.nodes;
    Some(Plan { nodes, depth })
}

struct Planning<'a> {
    marks: &'a mut Marks,
    nodes: Vec<Planned>,
}

impl Planning<'_> {
    /// Takes a place for the node, then builds its slots from the lowest to the highest. Gives the
    /// node's record and the nodes on the longest path from it.
    fn node(&mut self, keys: &[u64], payloads: &[u64]) -> Option<(u64, usize)> {
        let model = model_of(keys);
        let spot = self.marks.take(model.l)?;
        let at = self.nodes.len();
        self.nodes.push(new_node(&model, spot, keys.len()));
        let (mut first, mut deepest) = (0, 0);
        while first < keys.len() {
            let slot = slot_of(keys[first], model.lo, model.w, model.l);
            let in_slot = |&key: &u64| slot_of(key, model.lo, model.w, model.l) == slot;
            let many = keys[first..].iter().take_while(|key| in_slot(key)).count();
            let group = first..first + many;
            let (built, depth) = self.group(&keys[group.clone()], &payloads[group])?;
            self.nodes[at].slots[slot as usize] = built;
            deepest = deepest.max(depth);
            first += many;
        }
        Some((spot.record, 1 + deepest))
    }

    /// One key makes DATA, more make a child over just those keys.
    fn group(&mut self, keys: &[u64], payloads: &[u64]) -> Option<(Slot, usize)> {
        if let ([key], [payload]) = (keys, payloads) {
            let (key, payload) = (*key, *payload);
            return Some((Slot::Data { key, payload }, 0));
        }
        let (record, depth) = self.node(keys, payloads)?;
        Some((Slot::Node { record }, depth))
    }
}

/// A node over n keys with all its slots NULL: "elements = n, built = n, conflicts = 0".
fn new_node(model: &Model, spot: Spot, n: usize) -> Planned {
    Planned {
        number: spot.record,
        record: Record {
            lo: model.lo,
            w: model.w,
            l: model.l,
            start: spot.start,
            elements: n as u64,
            built: n as u64,
            conflicts: 0,
        },
        slots: vec![Slot::Null; model.l as usize],
    }
}
