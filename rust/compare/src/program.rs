//! The program `replay`: what it prints for a journal on its standard input, line for line.

use crate::difference::{same, Difference};
use crate::tally::{number, Tally};
use crate::world;
use reference::random::Random;
use reference::replay;
use std::env;
use std::io::{self, ErrorKind, Write};
use std::process::{Command, Stdio};

pub const ANSWERS: &[(&str, &[u32])] = &[("program", &[0, 3, 13, 14, 15])];

pub fn input(index: u64, random: &mut Random, tally: &mut Tally) -> Result<(), Difference> {
    let (kind, journal) = world::journal(index, random);
    tally.input(kind);
    let printed = run(&journal).map_err(|error| Difference(format!("program: {error}")))?;
    tally.answer("program", number(&replay::replay(&journal)));
    let expected = replay::output(&journal);
    let lines = printed.lines().zip(expected.lines()).enumerate();
    for (at, (line, right)) in lines {
        same(&format!("program: line {}", at + 1), line, right)?;
    }
    same("program: all that is printed", printed.as_str(), &expected)
}

/// What the program prints: the one that REPLAY names, or else where `scripts/build` leaves it.
fn run(journal: &[u8]) -> io::Result<String> {
    let program = env::var_os("REPLAY").unwrap_or_else(|| "target/bin/replay".into());
    let mut child = Command::new(program).stdin(Stdio::piped()).stdout(Stdio::piped()).spawn()?;
    let written = child.stdin.take().expect("it was asked for").write_all(journal);
    // The program leaves unread what comes after the longest journal.
    match written {
        Err(error) if error.kind() != ErrorKind::BrokenPipe => return Err(error),
        _ => {}
    }
    let output = child.wait_with_output()?;
    if !output.status.success() {
        return Err(io::Error::new(ErrorKind::Other, output.status.to_string()));
    }
    String::from_utf8(output.stdout).map_err(|error| io::Error::new(ErrorKind::InvalidData, error))
}
