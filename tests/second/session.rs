//! A whole session by document 01, "The session program", over any store that answers its five
//! calls: what an input prints, and which bytes of it each operation prints.

use crate::store::answers::{Changed, Handle, Inserted, Listed, Looked, DONE};
use crate::store::pools::{Mem, Scratch};
use crate::store::{calls, insert};

pub const CAPACITY: usize = 512;
pub const RECORDS: usize = 256;
pub const SLOTS: usize = 2048;
/// A band lists up to this many.
pub const LONGEST_LIST: usize = 64;

/// What a band lists, and what it answers.
pub struct Band {
    pub answer: Listed,
    pub listed: Vec<(u64, u64)>,
}

/// The calls of a session, each on the store as the ones before left it.
pub trait Calls {
    fn insert(&mut self, key: u64, payload: u64) -> Inserted;
    fn delete(&mut self, key: u64) -> Changed;
    fn lookup(&mut self, key: u64) -> Looked;
    fn band(&mut self, u: u64, v: u64) -> Band;
    fn replace(&mut self, key: u64, payload: u64) -> Changed;
}

/// The second store between two operations.
pub struct Second {
    handle: Handle,
    mem: Mem,
    scratch: Scratch,
}

impl Second {
    /// "It starts from an empty load".
    pub fn start() -> Second {
        let mut mem = Mem::zeros(RECORDS, SLOTS);
        let loaded = calls::load(CAPACITY as u64, &[], &[], &mut mem);
        assert_eq!(loaded.number, DONE, "an empty load has room");
        let zeros = || vec![0; CAPACITY];
        let [keys, payloads, places] = [zeros(), zeros(), zeros()];
        Second {
            handle: loaded.handle,
            mem,
            scratch: Scratch {
                keys,
                payloads,
                places,
            },
        }
    }
}

impl Calls for Second {
    fn insert(&mut self, key: u64, payload: u64) -> Inserted {
        let (mem, scratch) = (&mut self.mem, &mut self.scratch);
        let answer = insert::insert(self.handle, key, payload, mem, scratch);
        self.handle = answer.handle;
        answer
    }

    fn delete(&mut self, key: u64) -> Changed {
        let answer = calls::delete(self.handle, key, &mut self.mem);
        self.handle = answer.handle;
        answer
    }

    fn lookup(&mut self, key: u64) -> Looked {
        calls::lookup(self.handle, key, &self.mem)
    }

    fn band(&mut self, u: u64, v: u64) -> Band {
        let (mut keys, mut payloads) = ([0; LONGEST_LIST], [0; LONGEST_LIST]);
        let answer = calls::band(self.handle, u, v, &self.mem, &mut keys, &mut payloads);
        let listed = keys.into_iter().zip(payloads);
        Band {
            answer,
            listed: listed.take(answer.count as usize).collect(),
        }
    }

    fn replace(&mut self, key: u64, payload: u64) -> Changed {
        let answer = calls::replace(self.handle, key, payload, &mut self.mem);
        self.handle = answer.handle;
        answer
    }
}

/// How the input ended.
#[derive(Clone, Copy, Debug, PartialEq, Eq)]
pub enum End {
    Boundary,
    UnknownKind,
    ShortBody,
}

/// What a session prints.
pub struct Printed {
    pub bytes: Vec<u8>,
    /// Where the lines of each operation begin, and last those of the end.
    pub starts: Vec<usize>,
    pub end: End,
}

impl Printed {
    pub fn operations(&self) -> u64 {
        self.starts.len() as u64 - 1
    }
}

/// Reads operations until the input ends or is no operation.
pub fn run(input: &[u8], store: &mut impl Calls) -> Printed {
    let mut printed = Printed {
        bytes: Vec::new(),
        starts: vec![0],
        end: End::Boundary,
    };
    let mut offset = 0;
    while offset < input.len() {
        let kind = input[offset];
        let start = offset + 1;
        let length = body_length(kind);
        let Some(body) = length.and_then(|n| input.get(start..start + n)) else {
            printed.bytes.extend(format!("x {offset}\n").bytes());
            printed.end = match length {
                None => End::UnknownKind,
                Some(_) => End::ShortBody,
            };
            break;
        };
        printed.bytes.extend(operation(kind, body, store).bytes());
        printed.starts.push(printed.bytes.len());
        offset = start + body.len();
    }
    printed
}

/// What one operation prints.
fn operation(kind: u8, body: &[u8], store: &mut impl Calls) -> String {
    let (first, rest) = (number(&body[..6]), number(&body[6..]));
    match kind {
        1 => {
            let a = store.insert(first, rest);
            line(kind, a.number, &[a.conflict, a.tidying])
        }
        2 => line(kind, store.delete(first).number, &[]),
        3 => {
            let a = store.lookup(first);
            line(kind, a.number, &[a.payload, a.visits])
        }
        4 => {
            let Band { answer, listed } = store.band(first, rest);
            let mut lines = line(kind, answer.number, &[answer.count, answer.more]);
            for (key, payload) in listed {
                lines += &format!("= {key} {payload}\n");
            }
            lines
        }
        _ => line(kind, store.replace(first, rest).number, &[]),
    }
}

/// "Numbers are little-endian"
fn number(bytes: &[u8]) -> u64 {
    bytes
        .iter()
        .rev()
        .fold(0, |n, byte| n * 256 + u64::from(*byte))
}

/// "It prints kind and number; on 0 also" what the call returns.
fn line(kind: u8, number: u64, returned: &[u64]) -> String {
    let mut line = format!("{kind} {number}");
    if number == DONE {
        for value in returned {
            line += &format!(" {value}");
        }
    }
    line + "\n"
}

/// "a body whose length the kind fixes"
pub fn body_length(kind: u8) -> Option<usize> {
    match kind {
        2 | 3 => Some(6),
        4 => Some(12),
        1 | 5 => Some(14),
        _ => None,
    }
}
