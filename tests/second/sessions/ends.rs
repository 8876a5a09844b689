//! Inputs that end in no operation, after a few that are: every unknown kind, every short body, and
//! every part of an input.

use super::streams::{payload, Script};
use crate::random::Random;
use crate::session::body_length;

/// A few operations of every kind.
fn few(random: &mut Random) -> Script {
    let mut script = Script::default();
    for _ in 0..random.below(4) {
        let key = random.below(40);
        script.insert(key, payload(random));
        script.lookup(key);
        script.replace(random.below(40), payload(random));
        script.delete(random.below(40));
        script.band(random.below(40), random.below(40));
    }
    script
}

/// One byte that is no kind, and what may stand after it.
pub fn unknown_kind(script: &mut Script, kind: u8, random: &mut Random) {
    script.bytes.push(kind);
    for _ in 0..random.below(30) {
        script.bytes.push(random.below(7) as u8);
    }
}

/// A kind with so many bytes of its body.
pub fn short_body(script: &mut Script, kind: u8, length: usize, random: &mut Random) {
    script.bytes.push(kind);
    script.bytes.extend((0..length).map(|_| random.any() as u8));
}

/// A kind with fewer bytes than its body has, or an unknown one; now and then neither.
pub fn any(script: &mut Script, random: &mut Random) {
    let kind = random.any() as u8;
    match random.below(4) {
        0 => {}
        1 if body_length(kind).is_none() => unknown_kind(script, kind, random),
        _ => {
            let kind = random.between(1, 5) as u8;
            let length = body_length(kind).expect("a known kind") as u64;
            short_body(script, kind, random.below(length) as usize, random);
        }
    }
}

/// All of them, each with a name.
pub fn all(random: &mut Random) -> Vec<(String, Vec<u8>)> {
    let mut inputs = Vec::new();
    for kind in 0..=255 {
        match body_length(kind) {
            None => {
                let mut script = few(random);
                unknown_kind(&mut script, kind, random);
                inputs.push((format!("kind {kind}"), script.bytes));
            }
            Some(whole) => {
                for length in 0..whole {
                    let mut script = few(random);
                    short_body(&mut script, kind, length, random);
                    inputs.push((format!("kind {kind} with {length} bytes"), script.bytes));
                }
            }
        }
    }
    let mut script = few(random);
    while script.bytes.len() < 150 {
        let more = few(random);
        script.bytes.extend(more.bytes);
    }
    for length in 0..=script.bytes.len() {
        let name = format!("the first {length} bytes");
        inputs.push((name, script.bytes[..length].to_vec()));
    }
    inputs
}
