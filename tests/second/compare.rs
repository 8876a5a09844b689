//! One case asked of both: the C edge's answer beside the second program's own. The first
//! difference is printed with its input and ends the run.

use crate::edge;
use crate::model::{self, ModelChoice, SlotChoice};
use crate::sounding;
use std::fmt::Debug;

/// Counts the cases in which both agreed.
#[derive(Default)]
pub struct Compared {
    pub cases: u64,
}

impl Compared {
    pub fn key(&mut self, depth: i64, number: u64) {
        let ours = match sounding::key_of(depth, number) {
            Some(key) => edge::Key { number: 0, key },
            None => edge::Key { number: 2, key: 0 },
        };
        let theirs = edge::pack(depth, number);
        self.same(ours, theirs, || {
            format!("key packing of depth {depth} number {number}")
        });
    }

    pub fn slot(&mut self, key: u64, lo: u64, w: u64, l: u64) {
        let ours = match model::slot_choice(key, lo, w, l) {
            SlotChoice::Slot(slot) => edge::Slot { number: 0, slot },
            SlotChoice::KeyOutOfRange => edge::Slot { number: 2, slot: 0 },
            SlotChoice::ModelOutOfRange => edge::Slot { number: 9, slot: 0 },
        };
        let theirs = edge::slot_choice(key, lo, w, l);
        self.same(ours, theirs, || {
            format!("slot choice of key {key} lo {lo} W {w} L {l}")
        });
    }

    pub fn keys(&mut self, shape: &str, keys: &[u64]) {
        self.bytes(shape, &model::bytes_from(keys));
    }

    pub fn bytes(&mut self, shape: &str, bytes: &[u8]) {
        let refusal = |number, place| edge::Model {
            number,
            place,
            l: 0,
            t: 0,
            lo: 0,
            w: 0,
        };
        let ours = match model::model_choice(bytes) {
            ModelChoice::Model(m) => edge::Model {
                number: 0,
                place: 0,
                l: m.l,
                t: m.t,
                lo: m.lo,
                w: m.w,
            },
            ModelChoice::BadLength => refusal(1, 0),
            ModelChoice::NotRising { place } => refusal(4, place),
        };
        let theirs = edge::model_choice(bytes);
        self.same(ours, theirs, || {
            let keys = model::keys_from(bytes);
            format!(
                "model choice ({shape}) of {} bytes with the keys {keys:?}",
                bytes.len()
            )
        });
    }

    fn same<A: PartialEq + Debug>(&mut self, ours: A, theirs: A, input: impl Fn() -> String) {
        if ours == theirs {
            self.cases += 1;
            return;
        }
        println!("they differ: {}", input());
        println!("  second program: {ours:?}");
        println!("  C edge:         {theirs:?}");
        println!("second: {} passed, 1 failed", self.cases);
        std::process::exit(1);
    }
}
