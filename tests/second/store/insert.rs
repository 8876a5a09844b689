//! Insert (document 01, "The calls"): DATA into a NULL slot, a two-key node on a conflict, the
//! tidying of the due node nearest the root, and the whole rebuild where the path has 24 nodes.
//! Refusals: 1, 2, 9 on the path, 5, 7, 9 in a subtree to be rebuilt, 8.

use super::answers::*;
use super::build::{plan, release, Plan};
use super::gather::{gather, Gathered};
use super::marks::Marks;
use super::pools::{Mem, Scratch, Slot, COUNTER_STOP, MOST_PATH};
use super::walk::{follow, Path, Step};
use crate::model::{KEY_END, MOST_SLOTS};

/// One insert while it is judged and carried out.
struct Insert<'a> {
    handle: Handle,
    key: u64,
    payload: u64,
    path: Path,
    mem: &'a mut Mem,
    scratch: &'a mut Scratch,
}

pub fn insert(
    handle: Handle,
    key: u64,
    payload: u64,
    mem: &mut Mem,
    scratch: &mut Scratch,
) -> Inserted {
    let refused = |number| Inserted {
        number,
        conflict: 0,
        tidying: 0,
        handle,
    };
    match path_to_new(&handle, key, mem, scratch) {
        Err(number) => refused(number),
        Ok(path) => {
            let insert = Insert {
                handle,
                key,
                payload,
                path,
                mem,
                scratch,
            };
            insert.stand().unwrap_or_else(refused)
        }
    }
}

/// The path to where the key is to go: refusals 1, 2, 9 on the path, 5, 7.
fn path_to_new(handle: &Handle, key: u64, mem: &Mem, scratch: &Scratch) -> Result<Path, u64> {
    if !mem.fits(handle) || !scratch.fits(handle) {
        return Err(SIZE);
    }
    if key >= KEY_END {
        return Err(RANGE);
    }
    let path = follow(mem, handle.root, key).map_err(|_| DAMAGE)?;
    if path.payload_of(key).is_some() {
        return Err(HELD);
    }
    if handle.count == handle.capacity {
        return Err(FULL);
    }
    Ok(path)
}

impl Insert<'_> {
    fn stand(self) -> Result<Inserted, u64> {
        if self.conflict() && self.path.steps.len() == MOST_PATH {
            return self.rebuild_whole();
        }
        match self.due() {
            None => self.plain(NOT_DUE),
            Some(at) => self.tidy(at),
        }
    }

    fn conflict(&self) -> bool {
        self.path.end.is_some()
    }

    fn done(&self, tidying: u64, root: u64) -> Inserted {
        let count = self.handle.count + 1;
        Inserted {
            number: DONE,
            conflict: u64::from(self.conflict()),
            tidying,
            handle: Handle {
                root,
                count,
                ..self.handle
            },
        }
    }

    /// "the whole tree is built afresh over all keys and the new one"; nothing is due, and no
    /// two-key node is placed.
    fn rebuild_whole(self) -> Result<Inserted, u64> {
        let old = self.gather_from(0)?;
        let fresh = plan(&mut self.mem.marks(), &old.keys, &old.payloads);
        self.scratch.after_rebuild(old.keys.len());
        let fresh = fresh.ok_or(NO_ROOM)?;
        fresh.store(self.mem);
        release_all(self.mem, &old);
        Ok(self.done(WHOLE_TREE, fresh.top()))
    }

    /// The live keys from the path's node `at` down and the new one; 9 in a subtree to be rebuilt.
    fn gather_from(&self, at: usize) -> Result<Gathered, u64> {
        let top = self.path.steps[at].node.number;
        let old = gather(self.mem, top, at, self.key, self.handle.capacity);
        Ok(old.map_err(|_| DAMAGE)?.with(self.key, self.payload))
    }

    /// The place on the path of the due node nearest the root, "judged as if the insert stood".
    fn due(&self) -> Option<usize> {
        self.path.steps.iter().position(|step| self.is_due(step))
    }

    fn is_due(&self, step: &Step) -> bool {
        let (elements, conflicts) = self.raised(step);
        let [elements, conflicts] = [elements, conflicts].map(u128::from);
        let built = u128::from(step.node.record.built);
        elements >= 64
            && elements >= 2 * built
            && 10 * conflicts >= elements - built
            && step.node.record.l < MOST_SLOTS
    }

    /// Elements and conflicts of a path node after the insert.
    fn raised(&self, step: &Step) -> (u64, u64) {
        let record = &step.node.record;
        let conflicts = if self.conflict() {
            one_more(record.conflicts)
        } else {
            record.conflicts
        };
        (one_more(record.elements), conflicts)
    }

    /// The node over the key met and the new one, in places that it takes from the map; 8 where
    /// there are none. No node without a conflict.
    fn two_key_node(&self, marks: &mut Marks) -> Result<Option<Plan>, u64> {
        let Some(met) = self.path.end else {
            return Ok(None);
        };
        let mut two = [met, (self.key, self.payload)];
        two.sort_unstable();
        let pair = plan(marks, &two.map(|(key, _)| key), &two.map(|(_, p)| p));
        pair.map(Some).ok_or(NO_ROOM)
    }

    /// An insert without tidying, or whose tidying is put off.
    fn plain(mut self, tidying: u64) -> Result<Inserted, u64> {
        let pair = self.two_key_node(&mut self.mem.marks())?;
        let slot = match &pair {
            Some(pair) => Slot::Node { record: pair.top() },
            None => Slot::Data {
                key: self.key,
                payload: self.payload,
            },
        };
        if let Some(pair) = &pair {
            pair.store(self.mem);
        }
        self.mem.put_slot(self.path.last().place(), slot);
        self.raise_counters(&Gathered::default());
        Ok(self.done(tidying, self.handle.root))
    }

    /// The subtree of the path's node `at` is built afresh. The old nodes and the two-key node hold
    /// their places meanwhile.
    fn tidy(self, at: usize) -> Result<Inserted, u64> {
        let old = self.gather_from(at)?;
        let mut marks = self.mem.marks();
        let pair = self.two_key_node(&mut marks)?;
        let fresh = plan(&mut marks, &old.keys, &old.payloads);
        self.scratch.after_rebuild(old.keys.len());
        match fresh.filter(|fresh| at + fresh.depth <= MOST_PATH) {
            None => self.plain(PUT_OFF),
            Some(fresh) => Ok(self.replace_subtree(at, &old, pair.as_ref(), &fresh)),
        }
    }

    /// "new nodes, zeroing, the slot above, counters of path nodes not released"
    fn replace_subtree(
        mut self,
        at: usize,
        old: &Gathered,
        pair: Option<&Plan>,
        fresh: &Plan,
    ) -> Inserted {
        fresh.store(self.mem);
        release_all(self.mem, old);
        for node in pair.iter().flat_map(|pair| &pair.nodes) {
            release(self.mem, node.number, node.record.start, node.record.l);
        }
        let record = fresh.top();
        let root = match at.checked_sub(1) {
            None => record,
            Some(above) => {
                let place = self.path.steps[above].place();
                self.mem.put_slot(place, Slot::Node { record });
                self.handle.root
            }
        };
        self.raise_counters(old);
        self.done(TIDIED, root)
    }

    /// "every node on the old path gets elements + 1 and, after a conflict, conflicts + 1", but for
    /// those released.
    fn raise_counters(&mut self, released: &Gathered) {
        for step in &self.path.steps {
            let number = step.node.number;
            if !released.holds_node(number) {
                let (elements, conflicts) = self.raised(step);
                self.mem.put_counters(number, elements, conflicts);
            }
        }
    }
}

/// "each stops at 4,294,967,295"; a counter that stands above comes down to it.
fn one_more(counter: u64) -> u64 {
    counter.min(COUNTER_STOP - 1) + 1
}

fn release_all(mem: &mut Mem, old: &Gathered) {
    for node in &old.nodes {
        release(mem, node.number, node.record.start, node.record.l);
    }
}
