//! What the calls answer: the numbers of document 01's table, and one struct for each kind of
//! call, in the words and the order in which the desk interface passes them. A field that an
//! answer does not return is 0.

pub const DONE: u64 = 0;
pub const SIZE: u64 = 1;
pub const RANGE: u64 = 2;
pub const REVERSED: u64 = 3;
pub const NOT_RISING: u64 = 4;
pub const HELD: u64 = 5;
pub const NOT_HELD: u64 = 6;
pub const FULL: u64 = 7;
pub const NO_ROOM: u64 = 8;
pub const DAMAGE: u64 = 9;

/// What an insert says about tidying.
pub const NOT_DUE: u64 = 0;
pub const TIDIED: u64 = 1;
pub const PUT_OFF: u64 = 2;
pub const WHOLE_TREE: u64 = 3;

/// Names the root, the count of keys, the capacity and the pool sizes.
#[repr(C)]
#[derive(Clone, Copy, Debug, Default, PartialEq, Eq)]
pub struct Handle {
    pub root: u64,
    pub count: u64,
    pub capacity: u64,
    pub records: u64,
    pub slots: u64,
}

/// Answer of unpacking a key.
#[repr(C)]
#[derive(Clone, Copy, Debug, Default, PartialEq, Eq)]
pub struct Sounding {
    pub number: u64,
    pub depth: i64,
    pub sounding: u64,
}

/// Answer of a load; `place` is returned beside 4. A refused load's handle is all zeros.
#[repr(C)]
#[derive(Clone, Copy, Debug, Default, PartialEq, Eq)]
pub struct Loaded {
    pub number: u64,
    pub place: u64,
    pub handle: Handle,
}

/// Answer of a lookup; `visits` is returned beside 0 and 6.
#[repr(C)]
#[derive(Clone, Copy, Debug, Default, PartialEq, Eq)]
pub struct Looked {
    pub number: u64,
    pub payload: u64,
    pub visits: u64,
}

/// Answer of a replace or a delete; `visits` is returned beside 6 alone.
#[repr(C)]
#[derive(Clone, Copy, Debug, Default, PartialEq, Eq)]
pub struct Changed {
    pub number: u64,
    pub visits: u64,
    pub handle: Handle,
}

/// Answer of a band.
#[repr(C)]
#[derive(Clone, Copy, Debug, Default, PartialEq, Eq)]
pub struct Listed {
    pub number: u64,
    pub count: u64,
    pub more: u64,
}

/// Answer of an insert.
#[repr(C)]
#[derive(Clone, Copy, Debug, Default, PartialEq, Eq)]
pub struct Inserted {
    pub number: u64,
    pub conflict: u64,
    pub tidying: u64,
    pub handle: Handle,
}
