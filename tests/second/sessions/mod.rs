//! Whole sessions, each through the session program and, operation by operation, through the desk
//! library.
//!
//!     streams     the inputs, by kinds of stream
//!     ends        inputs that end in no operation
//!     program     the session program as a child process, its bytes in and its bytes out
//!     watched     the store of a session: every call asked of both stores, all words read anew
//!     reached     which answers were reached, how often, and which were reached before

pub mod ends;
pub mod program;
pub mod reached;
pub mod streams;
pub mod watched;
