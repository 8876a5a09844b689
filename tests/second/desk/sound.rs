//! What holds in every undamaged store, read from its words: keys rise and stand once each, where
//! every model above them sends them; each used record has one path, at most 24 nodes long; runs do
//! not overlap; the map marks the tree and nothing else; all words that nothing uses are zero.

use crate::model::{in_range, slot_of, slots_for, LEAST_SLOTS};
use crate::store::answers::Handle;
use crate::store::marks::{is_marked, words_for};
use crate::store::pools::{Mem, Record, MOST_PATH, RECORD_WORDS, SLOT_WORDS};

/// A key with its payload and the nodes on its path.
#[derive(Clone, Copy, Debug, PartialEq, Eq)]
pub struct Found {
    pub key: u64,
    pub payload: u64,
    pub visits: u64,
}

/// The whole tree, or the first thing that does not hold.
pub fn read(mem: &Mem, handle: &Handle) -> Result<Vec<Found>, String> {
    let mut reading = Reading {
        mem,
        above: Vec::new(),
        found: Vec::new(),
        record_taken: vec![false; handle.records as usize],
        slot_taken: vec![false; handle.slots as usize],
    };
    reading.lengths(handle)?;
    reading.node(handle.root)?;
    reading.map_and_rest()?;
    let count = reading.found.len() as u64;
    hold(count == handle.count && count <= handle.capacity, || {
        format!("{count} keys with {handle:?}")
    })?;
    Ok(reading.found)
}

fn hold(holds: bool, what: impl Fn() -> String) -> Result<(), String> {
    if holds {
        Ok(())
    } else {
        Err(what())
    }
}

struct Reading<'a> {
    mem: &'a Mem,
    /// The nodes from the root to the one at hand, each with the slot taken.
    above: Vec<(Record, u64)>,
    found: Vec<Found>,
    record_taken: Vec<bool>,
    slot_taken: Vec<bool>,
}

impl Reading<'_> {
    fn lengths(&self, handle: &Handle) -> Result<(), String> {
        let (records, slots) = (handle.records as usize, handle.slots as usize);
        let right = self.mem.nodes.len() == RECORD_WORDS * records
            && self.mem.slots.len() == SLOT_WORDS * slots
            && self.mem.used.len() == words_for(records, slots);
        hold(right, || "lengths".to_string())
    }

    /// Gives the live keys of the node's subtree.
    fn node(&mut self, number: u64) -> Result<u64, String> {
        let record = self.mem.record(number).ok_or("a record outside")?;
        let taken = &mut self.record_taken[number as usize];
        hold(!*taken, || format!("two paths to record {number}"))?;
        *taken = true;
        self.shape(number, &record)?;
        let mut live = 0;
        for slot in 0..record.l {
            self.above.push((record, slot));
            live += self.slot(record.start + slot)?;
            self.above.pop();
        }
        let added = record.elements.checked_sub(record.built);
        let counted = live <= record.elements && added.is_some_and(|a| record.conflicts <= a);
        hold(counted, || format!("counters of record {number}"))?;
        Ok(live)
    }

    fn shape(&mut self, number: u64, record: &Record) -> Result<(), String> {
        let empty_root = record.built == 0 && record.l == 64 && self.above.is_empty();
        let l_right = record.built > 0 && record.l == slots_for(record.built as usize);
        let right = (l_right || empty_root) && in_range(record.lo, record.w, record.l);
        hold(right, || format!("the model of record {number}"))?;
        hold(self.above.len() < MOST_PATH, || {
            "a path past 24".to_string()
        })?;
        let eighth = self.mem.nodes[number as usize * RECORD_WORDS + RECORD_WORDS - 1];
        hold(eighth == 0, || {
            format!("the eighth word of record {number}")
        })?;
        for place in record.start..record.start + record.l {
            let taken = self
                .slot_taken
                .get_mut(place as usize)
                .ok_or("a run outside")?;
            hold(!*taken, || format!("slot {place} in two runs"))?;
            *taken = true;
        }
        Ok(())
    }

    fn slot(&mut self, place: u64) -> Result<u64, String> {
        let at = place as usize * SLOT_WORDS;
        let (first, second) = (self.mem.slots[at], self.mem.slots[at + 1]);
        let value = first & ((1 << 48) - 1);
        match first >> 48 {
            0 => hold(first == 0 && second == 0, || {
                format!("NULL slot {place} not zero")
            })?,
            1 => {
                self.key(value, second)?;
                return Ok(1);
            }
            2 => {
                hold(second == 0, || format!("NODE slot {place} with a payload"))?;
                return self.node(value);
            }
            _ => return Err(format!("the kind of slot {place}")),
        }
        Ok(0)
    }

    fn key(&mut self, key: u64, payload: u64) -> Result<(), String> {
        let sent =
            |(record, slot): &(Record, u64)| slot_of(key, record.lo, record.w, record.l) == *slot;
        hold(self.above.iter().all(sent), || {
            format!("key {key} is sent elsewhere")
        })?;
        let rises = self.found.last().is_none_or(|last| last.key < key);
        hold(rises, || format!("key {key} does not rise"))?;
        let visits = self.above.len() as u64;
        self.found.push(Found {
            key,
            payload,
            visits,
        });
        Ok(())
    }

    /// Marks for the tree's records and slots and for nothing else, zeros wherever no mark is.
    fn map_and_rest(&self) -> Result<(), String> {
        let taken = self.record_taken.iter().chain(&self.slot_taken).copied();
        let mut places = 0..64 * self.mem.used.len() as u64;
        let taken = taken.chain(std::iter::repeat(false));
        let wrong = taken
            .zip(&mut places)
            .find(|&(taken, place)| is_marked(&self.mem.used, place) != taken);
        hold(wrong.is_none(), || {
            format!("the mark of a place: {wrong:?}")
        })?;
        rest_zero(&self.mem.nodes, RECORD_WORDS, &self.record_taken)?;
        rest_zero(&self.mem.slots, SLOT_WORDS, &self.slot_taken)
    }
}

fn rest_zero(words: &[u64], size: usize, taken: &[bool]) -> Result<(), String> {
    let mut untaken = words.chunks(size).zip(taken).filter(|(_, &taken)| !taken);
    let zero = untaken.all(|(words, _)| words.iter().all(|&word| word == 0));
    hold(zero, || "an unused record or slot is not zero".to_string())
}

/// The most nodes on a path of a tree just built: "H = 1 for n <= 4, else 1 + H(ceil(n/3))".
pub fn most_built(n: u64) -> u64 {
    if n <= LEAST_SLOTS {
        1
    } else {
        1 + most_built(n.div_ceil(3))
    }
}

/// The nodes from the root to the slot of a key that holds no child, whether the key is held or not.
pub fn nodes_to(mem: &Mem, handle: &Handle, key: u64) -> u64 {
    let (mut number, mut nodes) = (handle.root as usize, 1);
    loop {
        let words = &mem.nodes[number * RECORD_WORDS..][..RECORD_WORDS];
        let place = words[3] + slot_of(key, words[0], words[1], words[2]);
        let first = mem.slots[place as usize * SLOT_WORDS];
        if first >> 48 != 2 {
            return nodes;
        }
        number = (first & ((1 << 48) - 1)) as usize;
        nodes += 1;
    }
}
