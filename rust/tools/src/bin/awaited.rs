//! Says whose messages are awaited at the end of a journal: `awaited <JOURNAL`. It prints a line for each message that
//! is in the FIFO log of a process and not in its causal log, with the chain of messages that it waits for, and nothing
//! where nothing waits. Names of the processes, in their order, stand for their numbers:
//! `awaited office weighbridge mixer <JOURNAL`. Each is 1 to 24 characters, and there is one for each process or none.
//! A refused journal or name is told on standard error; the exit status is then 1.

use std::process::ExitCode;
use tools::{chain, command};

const USAGE: &str = "usage: awaited [NAME ...] <JOURNAL\n       \
                     one NAME for each process, in their order, or none";

fn main() -> ExitCode {
    command::on_journal("awaited", USAGE, chain::lines)
}
