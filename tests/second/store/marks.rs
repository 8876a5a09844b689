//! The map of used places (docs/MEMORY.md): records first, then slots, a bit for each, lowest bit
//! first. "A node takes the lowest unused record and the lowest start at which L consecutive slots
//! are unused" (document 01, "Where nodes go").

#[derive(Clone, Debug)]
pub struct Marks {
    words: Vec<u64>,
    records: u64,
    slots: u64,
}

/// Where a node is: its record, and the first slot of its run.
#[derive(Clone, Copy, Debug, PartialEq, Eq)]
pub struct Spot {
    pub record: u64,
    pub start: u64,
}

/// How many words the map has.
pub fn words_for(records: usize, slots: usize) -> usize {
    (records + slots).div_ceil(64)
}

/// Whether a place is marked. A place past the words is not.
pub fn is_marked(words: &[u64], place: u64) -> bool {
    let word = usize::try_from(place / 64)
        .ok()
        .and_then(|at| words.get(at));
    word.is_some_and(|word| word >> (place % 64) & 1 == 1)
}

/// Marks a place that is within the words, or unmarks it.
pub fn set_mark(words: &mut [u64], place: u64, used: bool) {
    let (word, bit) = (&mut words[(place / 64) as usize], 1 << (place % 64));
    *word = if used { *word | bit } else { *word & !bit };
}

impl Marks {
    pub fn new(words: Vec<u64>, records: u64, slots: u64) -> Marks {
        Marks {
            words,
            records,
            slots,
        }
    }

    /// A map in which nothing is used.
    pub fn empty(records: u64, slots: u64) -> Marks {
        let words = vec![0; words_for(records as usize, slots as usize)];
        Marks::new(words, records, slots)
    }

    fn slot_used(&self, slot: u64) -> bool {
        is_marked(&self.words, self.records + slot)
    }

    pub fn lowest_record(&self) -> Option<u64> {
        (0..self.records).find(|&record| !is_marked(&self.words, record))
    }

    pub fn lowest_run(&self, l: u64) -> Option<u64> {
        let mut start = 0;
        while start + l <= self.slots {
            // no run can begin before or at a used slot that it would take in
            match (start..start + l).rev().find(|&slot| self.slot_used(slot)) {
                None => return Some(start),
                Some(used) => start = used + 1,
            }
        }
        None
    }

    /// The lowest record and the lowest run, now marked; nothing is marked where either lacks.
    pub fn take(&mut self, l: u64) -> Option<Spot> {
        let (record, start) = (self.lowest_record()?, self.lowest_run(l)?);
        set_mark(&mut self.words, record, true);
        for slot in start..start + l {
            set_mark(&mut self.words, self.records + slot, true);
        }
        Some(Spot { record, start })
    }
}
