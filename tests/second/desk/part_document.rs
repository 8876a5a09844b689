//! The second store itself against what document 01 and docs/MEMORY.md print: the soundings P1 to
//! P12, the words of P4, and the session's example. No call of the library is needed.

use super::compared::Compared;
use super::stores::{Sizes, Store};
use crate::model::KEY_END;
use crate::random::Random;
use crate::store::answers::*;
use crate::store::calls;
use crate::store::insert::insert;
use crate::store::pools::{Mem, Record, Scratch, Slot};

pub fn compare(compared: &mut Compared, _: &mut Random) {
    for (name, holds) in ROWS {
        compared.about = name.to_string();
        if !holds() {
            compared.wrong("the second store does not do what the document prints");
        }
        compared.cases += 1;
    }
}

type Row = (&'static str, fn() -> bool);

const ROWS: [Row; 10] = [
    ("P1 to P6, slots of the root", slots_of_roots),
    ("P4, every word", words_of_p4),
    ("P7", p7),
    ("P8", p8),
    ("P9, P10", p9_p10),
    ("P11", p11),
    ("P12", p12),
    ("the session's example", session),
    (
        "a tidying with a two-key node, P4 with its root due",
        tidied_p4,
    ),
    ("the first tidying of the empty root", first_tidying),
];

const P4: [u64; 6] = [0, 100, 101, 102, 10_000, 20_000];

fn loaded(keys: &[u64]) -> Store {
    let sizes = Sizes {
        capacity: 100,
        records: 40,
        slots: 400,
    };
    Store::loaded(sizes, keys).expect("there is room")
}

/// Keys, then the slot of the root that each goes to.
fn slots_of_roots() -> bool {
    let rows: [(&[u64], &[u64]); 6] = [
        (&[10, 20, 30, 40], &[0, 1, 6, 7]),
        (&[5, 6, 7], &[0, 1, 5]),
        (&[1, 2, 3, 4, 1000], &[0, 1, 3, 6, 9]),
        (&P4, &[0, 0, 1, 6, 11, 11]),
        (&[7, 8], &[1, 2]),
        (&[0, KEY_END - 1], &[1, 2]),
    ];
    rows.iter().all(|(keys, slots)| {
        let store = loaded(keys);
        let mut pairs = keys.iter().zip(slots.iter());
        pairs.all(|(&key, &slot)| match store.mem.slot(slot) {
            Some(Slot::Data { key: held, .. }) => held == key,
            Some(Slot::Node { .. }) => calls::lookup(store.handle, key, &store.mem).visits == 2,
            _ => false,
        })
    })
}

fn words_of_p4() -> bool {
    let mut mem = Mem::zeros(4, 24);
    let payloads = [1, 2, 3, 4, 5, 6];
    let answer = calls::load(6, &P4, &payloads, &mut mem);
    let mut nodes = vec![101, 2, 12, 0, 6, 6, 0, 0, 0, 101, 4, 12, 2, 2, 0, 0];
    nodes.extend([10_000, 10_001, 4, 16, 2, 2, 0, 0]);
    nodes.resize(32, 0);
    let mut slots = vec![0; 48];
    let words = [
        (0, 562_949_953_421_313, 0),
        (1, 281_474_976_710_757, 3),
        (6, 281_474_976_710_758, 4),
        (11, 562_949_953_421_314, 0),
        (13, 281_474_976_710_656, 1),
        (14, 281_474_976_710_756, 2),
        (17, 281_474_976_720_656, 5),
        (18, 281_474_976_730_656, 6),
    ];
    for (slot, first, second) in words {
        slots[2 * slot] = first;
        slots[2 * slot + 1] = second;
    }
    let used = vec![16_777_207];
    answer.number == DONE && mem == Mem { nodes, slots, used }
}

/// "P1 then 25: slot 3, no conflict"
fn p7() -> bool {
    let mut store = loaded(&[10, 20, 30, 40]);
    let answer = store.insert(25);
    let there = matches!(store.mem.slot(3), Some(Slot::Data { key: 25, .. }));
    answer.number == DONE && answer.conflict == 0 && answer.tidying == 0 && there
}

/// "P1 then 5: conflict; lookup 7 answers 6 after 2 nodes"
fn p8() -> bool {
    let mut store = loaded(&[10, 20, 30, 40]);
    let answer = store.insert(5);
    let looked = calls::lookup(store.handle, 7, &store.mem);
    answer.conflict == 1 && looked.number == NOT_HELD && looked.visits == 2
}

fn p9_p10() -> bool {
    let p9 = calls::unpack(5_328_443_801_607);
    let p10 = calls::unpack(0);
    let past = calls::unpack(KEY_END);
    (p9.number, p9.depth, p9.sounding) == (DONE, -150, 7)
        && (p10.number, p10.depth, p10.sounding) == (DONE, -20_000, 0)
        && (past.number, past.depth, past.sounding) == (RANGE, 0, 0)
}

fn p11() -> bool {
    let answer = calls::load(9, &[4, 4], &[0, 0], &mut Mem::zeros(2, 64));
    (answer.number, answer.place, answer.handle) == (NOT_RISING, 1, Handle::default())
}

fn p12() -> bool {
    let store = loaded(&[]);
    let answer = calls::band(store.handle, 0, KEY_END - 1, &store.mem, &mut [], &mut []);
    (answer.number, answer.count, answer.more) == (DONE, 0, 0)
}

/// Insert 10, insert 20, lookup 10, insert 10, delete 30, band 0 to 20.
fn session() -> bool {
    let mut store = Store::loaded(super::stores::SESSION, &[]).expect("there is room");
    let answers = [store.insert(10), store.insert(20)];
    let looked = calls::lookup(store.handle, 10, &store.mem);
    let again = store.insert(10);
    let deleted = calls::delete(store.handle, 30, &mut store.mem);
    answers.map(|answer| (answer.number, answer.conflict, answer.tidying)) == [(0, 0, 0), (0, 1, 0)]
        && (looked.number, looked.visits) == (DONE, 2)
        && again.number == HELD
        && deleted.number == NOT_HELD
        && store.keys() == [10, 20]
}

/// The pair takes record 3 and slots 20 to 23, the new root record 4 at slot 24; record 3 is free
/// again.
fn tidied_p4() -> bool {
    let mut store = loaded(&P4);
    store.mem.put_counters(0, 63, 100);
    let mut scratch = Scratch {
        keys: vec![7; 100],
        payloads: vec![7; 100],
        places: vec![7; 100],
    };
    let answer = insert(store.handle, 1, 9, &mut store.mem, &mut scratch);
    let root = store
        .mem
        .record(4)
        .map(|record| (record.start, record.elements, record.built));
    let bare = |record: Option<Record>| record.is_some_and(|record| record.l == 0);
    let zeros = |list: &[u64]| list.iter().take_while(|&&word| word == 0).count();
    (
        answer.number,
        answer.conflict,
        answer.tidying,
        answer.handle.root,
    ) == (DONE, 1, TIDIED, 4)
        && root == Some((24, 7, 7))
        && (0..4).all(|number| bare(store.mem.record(number)) && !store.mem.record_used(number))
        && [&scratch.keys, &scratch.payloads, &scratch.places].map(|list| zeros(list)) == [7; 3]
}

/// The empty root is due from 64 elements and 7 conflicts on: here two keys go to each slot.
fn first_tidying() -> bool {
    let mut store = Store::loaded(super::stores::SESSION, &[]).expect("there is room");
    let key = |i: u64| (i / 2) * (KEY_END / 62 + 1) + i % 2;
    let tidyings: Vec<u64> = (0..64).map(|i| store.insert(key(i)).tidying).collect();
    tidyings[..63].iter().all(|&tidying| tidying == NOT_DUE) && tidyings[63] == TIDIED
}
