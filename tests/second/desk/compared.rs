//! One call asked of both, on the same words: the library's answer and every word it leaves beside
//! the second store's own. The first difference is printed with what led to it and ends the run.

use super::lent::{Lent, LentScratch, List};
use super::library;
use crate::store::answers::*;
use crate::store::pools::{Mem, Scratch, RECORD_WORDS, SLOT_WORDS};
use crate::store::{calls, insert};
use std::collections::BTreeMap;
use std::fmt::Debug;

/// Pools with the same words for both, and the words before the last call.
#[derive(Default)]
pub struct Both {
    pub ours: Mem,
    theirs: Lent,
    before: Mem,
    scratch: Scratch,
    their_scratch: LentScratch,
}

impl Both {
    pub fn new(mem: &Mem) -> Both {
        let mut both = Both::default();
        both.set(mem);
        both
    }

    pub fn set(&mut self, mem: &Mem) {
        self.ours.clone_from(mem);
        self.theirs.set(mem);
    }

    /// Scratch of these lengths in which no word is 0.
    fn set_scratch(&mut self, lengths: [usize; 3]) {
        let lists = [
            &mut self.scratch.keys,
            &mut self.scratch.payloads,
            &mut self.scratch.places,
        ];
        for (list, length) in lists.into_iter().zip(lengths) {
            junk(list, length);
        }
        self.their_scratch.set(&self.scratch);
    }

    fn agree(&self) -> bool {
        self.theirs.holds(&self.ours)
    }

    /// The first place of scratch after the last insert.
    pub fn scratch_first(&self) -> u64 {
        self.scratch.keys[0]
    }
}

/// Fills a list with words that are not 0.
fn junk(list: &mut Vec<u64>, length: usize) {
    list.clear();
    list.extend((0..length as u64).map(|place| !0 - place * 0x0101_0101));
}

/// An answer that was reached: the call, its number and, for an insert, conflict and tidying.
type Reached = (&'static str, u64, u64, u64);

/// Counts the calls in which both agreed.
#[derive(Default)]
pub struct Compared {
    /// The word that the last line begins with.
    word: &'static str,
    pub cases: u64,
    /// How the memory at hand came about.
    pub about: String,
    /// Which operation of a session is at hand, from 1; 0 outside sessions.
    pub operation: u64,
    reached: BTreeMap<Reached, u64>,
}

impl Compared {
    pub fn new(word: &'static str) -> Compared {
        Compared {
            word,
            ..Compared::default()
        }
    }

    pub fn unpack(&mut self, key: u64) {
        let (ours, theirs) = (calls::unpack(key), library::unpack(key));
        let same = ours == theirs;
        self.count(same, ("unpack", ours.number, 0, 0), || {
            tell(&ours, &theirs, format!("unpack of {key}"));
        });
    }

    pub fn load(
        &mut self,
        both: &mut Both,
        capacity: u64,
        keys: &[u64],
        payloads: &[u64],
    ) -> Loaded {
        let (lent_keys, lent_payloads) = (List::new(keys), List::new(payloads));
        both.before.clone_from(&both.ours);
        let theirs = library::load(capacity, &lent_keys, &lent_payloads, &mut both.theirs);
        let ours = calls::load(capacity, keys, payloads, &mut both.ours);
        let lists_same = lent_keys.holds(keys) && lent_payloads.holds(payloads);
        let same = ours == theirs && lists_same && both.agree();
        let about = &self.about.clone();
        self.count(same, ("load", ours.number, 0, 0), || {
            let few = &keys[..keys.len().min(40)];
            let many = [keys.len(), payloads.len()];
            let call = format!("load of {many:?} at capacity {capacity}, first {few:?}");
            tell(&ours, &theirs, call);
            tell_memory(about, both);
        });
        ours
    }

    pub fn lookup(&mut self, both: &mut Both, handle: Handle, key: u64) -> Looked {
        both.before.clone_from(&both.ours);
        let theirs = library::lookup(handle, key, &both.theirs);
        let ours = calls::lookup(handle, key, &both.ours);
        self.judge(both, "lookup", ours.number, &ours, &theirs, || {
            format!("lookup of {key} with {handle:?}")
        });
        ours
    }

    pub fn replace(&mut self, both: &mut Both, handle: Handle, key: u64, payload: u64) -> Changed {
        both.before.clone_from(&both.ours);
        let theirs = library::replace(handle, key, payload, &mut both.theirs);
        let ours = calls::replace(handle, key, payload, &mut both.ours);
        self.judge(both, "replace", ours.number, &ours, &theirs, || {
            format!("replace of {key} by {payload:#x} with {handle:?}")
        });
        ours
    }

    pub fn delete(&mut self, both: &mut Both, handle: Handle, key: u64) -> Changed {
        both.before.clone_from(&both.ours);
        let theirs = library::delete(handle, key, &mut both.theirs);
        let ours = calls::delete(handle, key, &mut both.ours);
        self.judge(both, "delete", ours.number, &ours, &theirs, || {
            format!("delete of {key} with {handle:?}")
        });
        ours
    }

    /// A band into an output of these lengths. Gives the answer and what was listed.
    pub fn band(
        &mut self,
        both: &mut Both,
        handle: Handle,
        (u, v): (u64, u64),
        lengths: [usize; 2],
    ) -> (Listed, Vec<u64>, Vec<u64>) {
        let [mut keys, mut payloads] = [Vec::new(), Vec::new()];
        junk(&mut keys, lengths[0]);
        junk(&mut payloads, lengths[1]);
        let (mut lent_keys, mut lent_payloads) = (List::new(&keys), List::new(&payloads));
        both.before.clone_from(&both.ours);
        let pools = &both.theirs;
        let theirs = library::band(handle, u, v, pools, &mut lent_keys, &mut lent_payloads);
        let ours = calls::band(handle, u, v, &both.ours, &mut keys, &mut payloads);
        let lists_same = lent_keys.holds(&keys) && lent_payloads.holds(&payloads);
        let same = ours == theirs && lists_same && both.agree();
        let about = &self.about.clone();
        self.count(same, ("band", ours.number, 0, 0), || {
            let call = format!("band of {u} to {v} into {lengths:?} with {handle:?}");
            tell(&ours, &theirs, call);
            tell_list("output keys", &keys, &lent_keys);
            tell_list("output payloads", &payloads, &lent_payloads);
            tell_memory(about, both);
        });
        let listed = ours.count as usize;
        keys.truncate(listed);
        payloads.truncate(listed);
        (ours, keys, payloads)
    }

    /// An insert with scratch just as long as the capacity.
    pub fn insert(&mut self, both: &mut Both, handle: Handle, key: u64, payload: u64) -> Inserted {
        let length = (handle.capacity as usize).min(20_000);
        self.insert_with(both, handle, key, payload, [length; 3])
    }

    pub fn insert_with(
        &mut self,
        both: &mut Both,
        handle: Handle,
        key: u64,
        payload: u64,
        lengths: [usize; 3],
    ) -> Inserted {
        both.set_scratch(lengths);
        both.before.clone_from(&both.ours);
        let theirs = library::insert(
            handle,
            key,
            payload,
            &mut both.theirs,
            &mut both.their_scratch,
        );
        let ours = insert::insert(handle, key, payload, &mut both.ours, &mut both.scratch);
        let same = ours == theirs && both.their_scratch.holds(&both.scratch) && both.agree();
        let reached = ("insert", ours.number, ours.conflict, ours.tidying);
        let about = &self.about.clone();
        self.count(same, reached, || {
            let call = format!("insert of {key} with scratch {lengths:?} and {handle:?}");
            tell(&ours, &theirs, call);
            let (scratch, lent) = (&both.scratch, &both.their_scratch);
            tell_list("scratch keys", &scratch.keys, &lent.keys);
            tell_list("scratch payloads", &scratch.payloads, &lent.payloads);
            tell_list("scratch places", &scratch.places, &lent.places);
            tell_memory(about, both);
        });
        ours
    }

    fn judge<A: PartialEq + Debug>(
        &mut self,
        both: &Both,
        call: &'static str,
        number: u64,
        ours: &A,
        theirs: &A,
        input: impl Fn() -> String,
    ) {
        let same = ours == theirs && both.agree();
        let about = &self.about.clone();
        self.count(same, (call, number, 0, 0), || {
            tell(ours, theirs, input());
            tell_memory(about, both);
        });
    }

    fn count(&mut self, same: bool, reached: Reached, explain: impl Fn()) {
        if same {
            self.cases += 1;
            *self.reached.entry(reached).or_default() += 1;
            return;
        }
        explain();
        self.fail();
    }

    /// Something found wrong by reading the words that both agree on.
    pub fn wrong(&self, what: &str) -> ! {
        println!("wrong in both: {what}");
        println!("  memory: {}", self.about);
        self.fail()
    }

    pub fn fail(&self) -> ! {
        if self.operation > 0 {
            println!("at operation {} of {}", self.operation, self.about);
        }
        println!("{}: {} passed, 1 failed", self.word, self.cases);
        std::process::exit(1);
    }

    /// Forgets what was reached, for the next part.
    pub fn begin(&mut self) {
        self.reached.clear();
        self.about.clear();
    }

    pub fn times(&self, call: &str, number: u64) -> u64 {
        let same = |reached: &Reached| reached.0 == call && reached.1 == number;
        self.sum(same)
    }

    pub fn times_tidying(&self, conflict: u64, tidying: u64) -> u64 {
        self.sum(|&reached| reached == ("insert", DONE, conflict, tidying))
    }

    fn sum(&self, counts: impl Fn(&Reached) -> bool) -> u64 {
        let chosen = self.reached.iter().filter(|(reached, _)| counts(reached));
        chosen.map(|(_, times)| times).sum()
    }

    /// Ends the run where an answer that the part is there for was never given.
    pub fn must_reach(&self, call: &str, numbers: &[u64]) {
        for &number in numbers {
            if self.times(call, number) == 0 {
                println!("no {call} was answered with {number}");
                self.fail();
            }
        }
    }

    /// How often each answer was given.
    pub fn print_reached(&self) {
        for (&(call, number, conflict, tidying), times) in &self.reached {
            let besides = if call == "insert" && number == DONE {
                format!(" conflict {conflict} tidying {tidying}")
            } else {
                String::new()
            };
            println!("  {call} answered {number}{besides}: {times}");
        }
    }
}

fn tell<A: Debug>(ours: &A, theirs: &A, call: String) {
    println!("they differ: {call}");
    println!("  second program: {ours:?}");
    println!("  library:        {theirs:?}");
}

fn tell_list(name: &str, ours: &[u64], theirs: &List) {
    if !theirs.guarded() {
        println!("  {name}: the library stored outside the list");
    }
    let differing = ours.iter().zip(theirs.words()).enumerate();
    let differing = differing.filter(|(_, (ours, theirs))| ours != theirs);
    for (word, (ours, theirs)) in differing.take(12) {
        println!("  {name} word {word}: second program {ours:#x}, library {theirs:#x}");
    }
}

fn tell_memory(about: &str, both: &Both) {
    println!("  memory: {about}");
    tell_list("nodes", &both.ours.nodes, &both.theirs.nodes);
    tell_list("slots", &both.ours.slots, &both.theirs.slots);
    tell_list("used", &both.ours.used, &both.theirs.used);
    println!("the pools before:");
    show(&both.before);
}

/// The records and slots that are not all zeros, as far as they are few, and the map.
fn show(mem: &Mem) {
    let records = mem.nodes.chunks(RECORD_WORDS).enumerate();
    for (number, words) in records
        .filter(|(_, words)| words.iter().any(|&w| w != 0))
        .take(60)
    {
        let mark = if mem.record_used(number as u64) {
            "used"
        } else {
            "unused"
        };
        println!("  record {number} ({mark}): {words:?}");
    }
    let slots = mem.slots.chunks(SLOT_WORDS).enumerate();
    for (place, words) in slots
        .filter(|(_, words)| words.iter().any(|&w| w != 0))
        .take(200)
    {
        let mark = if mem.slot_used(place as u64) {
            "used"
        } else {
            "unused"
        };
        let whole = words.len() == SLOT_WORDS;
        match whole.then(|| mem.slot(place as u64)).flatten() {
            Some(slot) => println!("  slot {place} ({mark}): {slot:?}"),
            None => println!("  slot {place} ({mark}): {words:x?}"),
        }
    }
    println!("  used: {:x?}", &mem.used[..mem.used.len().min(40)]);
}
