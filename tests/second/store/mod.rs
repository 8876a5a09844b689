//! The second store: the calls of document 01 ("The calls", "Numbers of the answers") written once
//! more, from its sentences and the layout in docs/MEMORY.md, in the plainest way. Every function
//! has an answer for every memory: no word that stands in the pools makes it stop or read outside.
//!
//!     answers   the numbers and what is returned beside them
//!     pools     the lent words: records, slots, the map of used places, scratch
//!     marks     the map alone, and the lowest unused record and run
//!     walk      one node and one slot under the rules of damage; the path of a key
//!     band      the walk of a band
//!     gather    the walk of a rebuild
//!     build     nodes over rising keys: their places, their stores, their release
//!     calls     load, lookup, replace, delete, band
//!     insert    insert, with tidying and the whole rebuild

pub mod answers;
pub mod band;
pub mod build;
pub mod calls;
pub mod gather;
pub mod insert;
pub mod marks;
pub mod pools;
pub mod walk;
