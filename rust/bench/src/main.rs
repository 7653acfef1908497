//! `bench CASE SIDE [PROCESSES MESSAGES]` makes what a case needs and runs the call that it is about, on the side
//! archive or reference; the instructions of that call are counted from outside. It prints how many units (words,
//! steps, arrivals, records) the call had to do with.
//!
//! A world has PROCESSES processes, two to a group and at most 8 groups, and MESSAGES messages to all groups, from each
//! process in turn; 16 and 64 where nothing is said.

mod cases;
mod sides;

use std::process::ExitCode;

const USAGE: &str = "bench CASE archive|reference [PROCESSES MESSAGES]";

fn main() -> ExitCode {
    let arguments: Vec<String> = std::env::args().skip(1).collect();
    let number = |at: usize, default: usize| match arguments.get(at) {
        Some(word) => word.parse().ok(),
        None => Some(default),
    };
    let (case, side) = match &arguments[..] {
        [case, side, ..] => (case.as_str(), side.as_str()),
        _ => ("", ""),
    };
    let sides = match side {
        "archive" => Some(&sides::ARCHIVE),
        "reference" => Some(&sides::REFERENCE),
        _ => None,
    };
    match (sides, number(2, 16), number(3, 64)) {
        (Some(side), Some(processes), Some(messages)) => match cases::run(case, side, processes, messages) {
            Some(units) => {
                println!("{units}");
                ExitCode::SUCCESS
            }
            None => usage(),
        },
        _ => usage(),
    }
}

fn usage() -> ExitCode {
    eprintln!("{USAGE}");
    ExitCode::from(2)
}
