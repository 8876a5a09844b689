//! Which answers were reached and how often. tests/second/reached.txt names those that the run of
//! the standard size reached before, one to a line: a run that misses one of them fails.

use std::collections::BTreeMap;

const BEFORE: &str = include_str!("../reached.txt");

#[derive(Default)]
pub struct Reached {
    times: BTreeMap<String, u64>,
}

impl Reached {
    pub fn note(&mut self, name: &str) {
        match self.times.get_mut(name) {
            Some(times) => *times += 1,
            None => {
                self.times.insert(name.to_string(), 1);
            }
        }
    }

    pub fn call(&mut self, call: &str, number: u64) {
        self.note(&format!("{call} {number}"));
    }

    pub fn insert_done(&mut self, conflict: u64, tidying: u64) {
        self.note(&format!("insert 0, conflict {conflict}, tidying {tidying}"));
    }

    pub fn print(&self) {
        for (name, times) in &self.times {
            println!("  {name:40} {times:>9}");
        }
    }

    fn before() -> impl Iterator<Item = &'static str> {
        BEFORE.lines().filter(|line| !line.starts_with('#'))
    }

    /// The first answer that was reached before and was not now.
    pub fn missed(&self) -> Option<&'static str> {
        Reached::before().find(|&name| !self.times.contains_key(name))
    }

    /// Those that tests/second/reached.txt does not name yet.
    pub fn new(&self) -> Vec<&str> {
        let names = self.times.keys().map(String::as_str);
        names
            .filter(|name| !Reached::before().any(|before| before == *name))
            .collect()
    }
}
