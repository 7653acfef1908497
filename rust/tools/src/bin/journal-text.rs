//! Turns text into a journal and back: `journal-text to-journal` and `journal-text to-text`, from standard input to
//! standard output. What is refused is told on standard error, with its line for text; the exit status is then 1.

use engine::journal;
use std::io::{self, Read, Write};
use std::process::ExitCode;
use tools::text;

const USAGE: &str =
    "usage: journal-text to-journal <TEXT >JOURNAL\n       journal-text to-text <JOURNAL >TEXT";

fn main() -> ExitCode {
    let arguments: Vec<String> = std::env::args().skip(1).collect();
    let convert = match arguments.iter().map(String::as_str).collect::<Vec<_>>()[..] {
        ["to-journal"] => to_journal,
        ["to-text"] => to_text,
        _ => {
            eprintln!("{USAGE}");
            return ExitCode::from(2);
        }
    };
    let mut input = Vec::new();
    let done = io::stdin()
        .read_to_end(&mut input)
        .map_err(|error| error.to_string())
        .and_then(|_| convert(&input))
        .and_then(|output| io::stdout().write_all(&output).map_err(|error| error.to_string()));
    match done {
        Ok(()) => ExitCode::SUCCESS,
        Err(reason) => {
            eprintln!("journal-text: {reason}");
            ExitCode::FAILURE
        }
    }
}

fn to_journal(text: &[u8]) -> Result<Vec<u8>, String> {
    let records = text::bytes_to_records(text).map_err(|fault| fault.to_string())?;
    journal::from_records(&records).map_err(|refusal| refusal.to_string())
}

fn to_text(journal: &[u8]) -> Result<Vec<u8>, String> {
    let records = journal::to_records(journal).map_err(|refusal| refusal.to_string())?;
    Ok(text::from_records(&records).into_bytes())
}
