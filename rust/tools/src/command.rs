//! A command that takes names for processes as its arguments and a journal on standard input, and prints what it makes
//! of the run. What is refused is told on standard error, and the exit status is then 1, or 2 for wrong arguments.

use crate::names::Names;
use crate::run::Run;
use std::io::{self, Read, Write};
use std::process::ExitCode;

/// Runs the command of this name, which prints what `make` gives. An argument that begins with a dash is no name.
pub fn on_journal(name: &str, usage: &str, make: fn(&Run, &Names) -> String) -> ExitCode {
    let arguments: Vec<String> =
        std::env::args_os().skip(1).map(|name| name.to_string_lossy().into_owned()).collect();
    if arguments.iter().any(|name| name.starts_with('-')) {
        eprintln!("{usage}");
        return ExitCode::from(2);
    }
    match print(arguments, make) {
        Ok(()) => ExitCode::SUCCESS,
        Err(reason) => {
            eprintln!("{name}: {reason}");
            ExitCode::FAILURE
        }
    }
}

fn print(names: Vec<String>, make: fn(&Run, &Names) -> String) -> Result<(), String> {
    let names = Names::new(names)?;
    let mut journal = Vec::new();
    io::stdin().read_to_end(&mut journal).map_err(|error| error.to_string())?;
    let run = Run::of_journal(&journal).map_err(|refusal| refusal.to_string())?;
    names.fit(run.groups.len())?;
    io::stdout().write_all(make(&run, &names).as_bytes()).map_err(|error| error.to_string())
}
