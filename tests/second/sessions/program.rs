//! The session program as a child process.

use crate::random::Random;
use std::io::{ErrorKind, Read, Write};
use std::process::{Child, ChildStdin, Command, Stdio};
use std::sync::mpsc;
use std::time::Duration;

/// A program that prints nothing more for so long is given up.
const PATIENCE: Duration = Duration::from_secs(600);

/// How an input is written: in one piece, or in pieces of 1 to 7 bytes.
#[derive(Clone, Copy, Debug, PartialEq, Eq)]
pub enum Writes {
    Whole,
    Tiny,
}

/// The words of its command.
pub struct Program {
    words: Vec<String>,
}

impl Program {
    pub fn new(command: &str) -> Option<Program> {
        let words: Vec<String> = command.split_whitespace().map(str::to_string).collect();
        (!words.is_empty()).then_some(Program { words })
    }

    /// What it prints on this input, or a sentence about what went wrong.
    pub fn print(&self, input: &[u8], writes: Writes) -> Result<Vec<u8>, String> {
        let name = self.words.join(" ");
        let mut child = Command::new(&self.words[0])
            .args(&self.words[1..])
            .stdin(Stdio::piped())
            .stdout(Stdio::piped())
            .spawn()
            .map_err(|error| format!("{name} could not be started: {error}"))?;
        let printed = exchange(&mut child, input, writes);
        let status = child
            .wait()
            .map_err(|error| format!("{name} could not be waited for: {error}"))?;
        match printed {
            None => Err(format!("{name} did not come to an end")),
            Some(_) if !status.success() => Err(format!("{name} ended with {status}")),
            Some(printed) => Ok(printed),
        }
    }
}

/// Writes while it reads, so that neither pipe can fill up and stop both.
fn exchange(child: &mut Child, input: &[u8], writes: Writes) -> Option<Vec<u8>> {
    let stdin = child.stdin.take().expect("its input is a pipe");
    let mut stdout = child.stdout.take().expect("its output is a pipe");
    std::thread::scope(|threads| {
        threads.spawn(move || write(stdin, input, writes));
        let (sender, receiver) = mpsc::channel();
        threads.spawn(move || {
            let mut printed = Vec::new();
            let read = stdout.read_to_end(&mut printed);
            sender.send(read.map(|_| printed)).ok();
        });
        let printed = receiver.recv_timeout(PATIENCE);
        if printed.is_err() {
            child.kill().ok();
        }
        printed.ok()?.ok()
    })
}

/// A program that has met its end reads no further; the rest is not written then.
fn write(mut stdin: ChildStdin, input: &[u8], writes: Writes) {
    let written = match writes {
        Writes::Whole => stdin.write_all(input),
        Writes::Tiny => write_tiny(stdin, input),
    };
    if let Err(error) = written {
        let gone = error.kind() == ErrorKind::BrokenPipe;
        assert!(gone, "the program's input could not be written: {error}");
    }
}

fn write_tiny(mut stdin: ChildStdin, input: &[u8]) -> std::io::Result<()> {
    let mut random = Random::new(input.len() as u64, 0);
    let mut rest = input;
    while !rest.is_empty() {
        let many = random.between(1, 7).min(rest.len() as u64) as usize;
        stdin.write_all(&rest[..many])?;
        stdin.flush()?;
        // the reader gets time to take the piece by itself
        if random.one_in(4) {
            std::thread::sleep(Duration::from_micros(20));
        }
        rest = &rest[many..];
    }
    Ok(())
}
