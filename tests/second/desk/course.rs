//! A sound store that goes on from call to call. Each call is asked of both; then the words are read
//! anew: the tree has to be sound, to hold what a plain ordered map beside it holds, and to be as
//! deep as the visits say. All words are read after every call.

use super::compared::{Both, Compared};
use super::sound::{self, Found};
use super::stores::{payloads_of, Sizes};
use crate::store::answers::*;
use crate::store::pools::Mem;
use std::collections::BTreeMap;

pub struct Course {
    both: Both,
    handle: Handle,
    map: BTreeMap<u64, u64>,
}

impl Course {
    /// From a load of these keys, or nothing where there is no room.
    pub fn load(compared: &mut Compared, sizes: Sizes, keys: &[u64]) -> Option<Course> {
        let mut both = Both::new(&Mem::zeros(sizes.records, sizes.slots));
        let payloads = payloads_of(keys);
        let loaded = compared.load(&mut both, sizes.capacity, keys, &payloads);
        if loaded.number != DONE {
            return None;
        }
        let course = Course {
            both,
            handle: loaded.handle,
            map: keys.iter().copied().zip(payloads).collect(),
        };
        let found = course.check(compared);
        check_built(compared, &found);
        Some(course)
    }

    pub fn holds(&self, key: u64) -> bool {
        self.map.contains_key(&key)
    }

    pub fn count(&self) -> u64 {
        self.map.len() as u64
    }

    /// Reads all words anew and compares with the map.
    fn check(&self, compared: &Compared) -> Vec<Found> {
        let found = match sound::read(&self.both.ours, &self.handle) {
            Ok(found) => found,
            Err(what) => compared.wrong(&what),
        };
        let held = found.iter().map(|found| (found.key, found.payload));
        if !held.eq(self.map.iter().map(|(&key, &payload)| (key, payload))) {
            compared.wrong("the tree holds another map");
        }
        found
    }

    pub fn insert(&mut self, compared: &mut Compared, key: u64, payload: u64) -> Inserted {
        let answer = compared.insert(&mut self.both, self.handle, key, payload);
        let right = match answer.number {
            DONE => self.map.insert(key, payload).is_none(),
            HELD => self.holds(key),
            FULL => self.count() == self.handle.capacity && !self.holds(key),
            NO_ROOM => !self.holds(key),
            _ => false,
        };
        if !right {
            compared.wrong(&format!("insert of {key} answers {}", answer.number));
        }
        let root_built = answer.handle.root != self.handle.root;
        self.handle = answer.handle;
        let found = self.check(compared);
        if root_built {
            check_built(compared, &found);
        } else if answer.tidying == WHOLE_TREE {
            compared.wrong("the whole tree built afresh in its own places");
        }
        answer
    }

    pub fn delete(&mut self, compared: &mut Compared, key: u64) -> Changed {
        let answer = compared.delete(&mut self.both, self.handle, key);
        let held = self.map.remove(&key).is_some();
        self.judge_change(compared, "delete", key, held, &answer);
        self.handle = answer.handle;
        self.check(compared);
        answer
    }

    pub fn replace(&mut self, compared: &mut Compared, key: u64, payload: u64) -> Changed {
        let answer = compared.replace(&mut self.both, self.handle, key, payload);
        let held = self.map.get_mut(&key).map(|old| *old = payload).is_some();
        self.judge_change(compared, "replace", key, held, &answer);
        self.check(compared);
        answer
    }

    /// A key held is changed; of another the nodes visited are returned.
    fn judge_change(&self, compared: &Compared, call: &str, key: u64, held: bool, is: &Changed) {
        let wanted = if held {
            (DONE, 0)
        } else {
            (
                NOT_HELD,
                sound::nodes_to(&self.both.ours, &self.handle, key),
            )
        };
        if (is.number, is.visits) != wanted {
            compared.wrong(&format!("{call} of {key} answers {is:?}"));
        }
    }

    pub fn lookup(&mut self, compared: &mut Compared, key: u64) -> Looked {
        let answer = compared.lookup(&mut self.both, self.handle, key);
        let found = self.check(compared);
        let there = found.iter().find(|found| found.key == key);
        let wanted = match there {
            Some(there) => looked(DONE, there.payload, there.visits),
            None => looked(
                NOT_HELD,
                0,
                sound::nodes_to(&self.both.ours, &self.handle, key),
            ),
        };
        if answer != wanted {
            compared.wrong(&format!(
                "lookup of {key} answers {answer:?}, found {there:?}"
            ));
        }
        answer
    }

    /// A band into an output of this length. Gives what was listed beside the answer.
    pub fn band(
        &mut self,
        compared: &mut Compared,
        (u, v): (u64, u64),
        room: usize,
    ) -> (Listed, Vec<(u64, u64)>) {
        let (answer, keys, payloads) =
            compared.band(&mut self.both, self.handle, (u, v), [room; 2]);
        let theirs: Vec<(u64, u64)> = keys.into_iter().zip(payloads).collect();
        let right = if u > v {
            answer.number == REVERSED && theirs.is_empty()
        } else {
            let mut all = self.map.range(u..=v).map(|(&key, &payload)| (key, payload));
            let listed: Vec<(u64, u64)> = all.by_ref().take(room).collect();
            let more = u64::from(all.next().is_some());
            answer.number == DONE && theirs == listed && answer.more == more
        };
        if !right {
            compared.wrong(&format!(
                "band of {u} to {v} into {room} answers {answer:?}"
            ));
        }
        self.check(compared);
        (answer, theirs)
    }

    /// Whether the last insert tried a rebuild: it leaves the first places of scratch zero.
    pub fn rebuild_tried(&self) -> bool {
        self.both.scratch_first() == 0
    }
}

/// A tree built whole has at most H(n) nodes on a path.
fn check_built(compared: &Compared, found: &[Found]) {
    let deepest = found.iter().map(|found| found.visits).max().unwrap_or(1);
    if deepest > sound::most_built(found.len() as u64) {
        compared.wrong("deeper than H(n) after a build");
    }
}

fn looked(number: u64, payload: u64, visits: u64) -> Looked {
    Looked {
        number,
        payload,
        visits,
    }
}
