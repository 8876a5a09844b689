//! The compiled library beside the second store, call by call and word by word.
//!
//!     library     the functions of include/soorqabiye_desk.h behind safe ones
//!     lent        the lists that are lent to the library, with guard words around each
//!     compared    one call asked of both, and what was reached
//!     stores      sound stores to begin from
//!     damage      single words of a store made wrong, and larger harm
//!     crafted     stores made by hand: chains, shared nodes, trees that no store would build
//!     memories    all of these, one after another, for the parts that try calls on each
//!     sound       what holds in every undamaged store, read from the words
//!     course      a sound store from call to call, its words read anew after each
//!     part_..     the parts of the comparison

pub mod compared;
pub mod course;
pub mod crafted;
pub mod damage;
pub mod lent;
pub mod library;
pub mod memories;
pub mod part_band;
pub mod part_deep;
pub mod part_document;
pub mod part_due;
pub mod part_harmed;
pub mod part_load;
pub mod part_path;
pub mod part_sound;
pub mod part_streams;
pub mod part_unpack;
pub mod sound;
pub mod stores;
