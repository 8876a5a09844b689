//! The session program once more, by the second store: operations from standard input, answers to
//! standard output.

#![allow(dead_code)] // the modules shared with the other programs hold more than is used here

mod model;
mod session;
mod store;

use std::io::{Read, Write};

fn main() {
    let mut input = Vec::new();
    std::io::stdin()
        .read_to_end(&mut input)
        .expect("standard input is read");
    let printed = session::run(&input, &mut session::Second::start());
    std::io::stdout()
        .write_all(&printed.bytes)
        .expect("standard output is written");
}
