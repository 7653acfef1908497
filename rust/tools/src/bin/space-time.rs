//! Draws the run of a journal as a space-time diagram: `space-time <JOURNAL >PICTURE.svg`. Names of the processes, in
//! their order, label their lines: `space-time office weighbridge mixer <JOURNAL >PICTURE.svg`. Each is 1 to 24
//! characters, and there is one for each process or none. A refused journal or name is told on standard error; the exit
//! status is then 1.

use std::process::ExitCode;
use tools::{command, picture};

const USAGE: &str = "usage: space-time [NAME ...] <JOURNAL >PICTURE.svg\n       \
                     one NAME for each process, in their order, or none";

fn main() -> ExitCode {
    command::on_journal("space-time", USAGE, picture::svg)
}
