//! One record as a line.

use super::words::Words;
use crate::numbers::{list, members};
use engine::{Letter, LetterKind, Record, Setup, Step, GROUPS, PROCESSES};

const KINDS: [(&str, LetterKind); 3] =
    [("first", LetterKind::First), ("relay", LetterKind::Relay), ("ok", LetterKind::Ok)];

/// The line of a record, without its end; the first record of a journal is its setup, all others are steps.
pub fn print(record: &Record, first: bool) -> String {
    let named = if first {
        Setup::from_record(record).map(|setup| format!("setup groups {}", list(setup.groups())))
    } else {
        Step::from_record(record).map(print_step)
    };
    named.unwrap_or_else(|| {
        let bytes: Vec<String> = record.iter().map(|byte| format!("{byte:02x}")).collect();
        format!("bytes {}", bytes.join(" "))
    })
}

fn print_step(step: Step) -> String {
    match step {
        Step::Multicast { process, groups, order } => {
            let order = if order == 0 { String::new() } else { format!(" order {order}") };
            format!("multicast {process} to {}{order}", list(&members(groups.into())))
        }
        Step::Arrival(letter) => format!("arrival {}", print_letter(letter)),
        Step::Loss(letter) => format!("loss {}", print_letter(letter)),
        Step::Trust { process, trusted } => format!("trust {process} in {}", list(&members(trusted))),
        Step::Crash { process } => format!("crash {process}"),
    }
}

fn print_letter(letter: Letter) -> String {
    let Letter { message, kind, from, to } = letter;
    let (name, _) = KINDS[usize::from(kind.number())];
    format!("{name} {message} from {from} to {to}")
}

/// The record of a line, or why there is none.
pub fn parse(line: &str, first: bool) -> Result<Record, String> {
    let mut words = Words::new(line);
    let name = words.next("a word")?;
    let record = match (name, first) {
        ("setup", true) => parse_setup(&mut words)?,
        ("setup", false) => return Err("a setup is the first record only".to_string()),
        ("bytes", _) => parse_bytes(&mut words, first)?,
        ("multicast" | "arrival" | "loss" | "trust" | "crash", true) => {
            return Err(format!("the first record is a setup, not {name}"))
        }
        ("multicast", _) => parse_multicast(&mut words)?,
        ("arrival", _) => Step::Arrival(parse_letter(&mut words)?).record(),
        ("loss", _) => Step::Loss(parse_letter(&mut words)?).record(),
        ("trust", _) => parse_trust(&mut words)?,
        ("crash", _) => Step::crash(words.number("a process")?).record(),
        _ => {
            let known = "setup, multicast, arrival, loss, trust, crash or bytes";
            return Err(format!("a line begins with {known}, not with '{name}'"));
        }
    };
    words.end()?;
    Ok(record)
}

fn parse_setup(words: &mut Words) -> Result<Record, String> {
    words.expect("groups")?;
    let groups = words.numbers("a group", GROUPS)?;
    match Setup::new(&groups) {
        Ok(setup) => Ok(setup.record()),
        Err(_) => Err(format!("1 to {PROCESSES} processes, not {}", groups.len())),
    }
}

fn parse_multicast(words: &mut Words) -> Result<Record, String> {
    let process = words.number("a process")?;
    words.expect("to")?;
    let groups = words.set("a group", GROUPS)?;
    let order = if words.take("order") { words.long_number("an order")? } else { 0 };
    let step = Step::multicast_with_order(process, &groups, order);
    step.map(Step::record).map_err(|refusal| refusal.to_string())
}

fn parse_trust(words: &mut Words) -> Result<Record, String> {
    let process = words.number("a process")?;
    words.expect("in")?;
    let trusted = words.set("a process", PROCESSES)?;
    Step::trust(process, &trusted).map(Step::record).map_err(|refusal| refusal.to_string())
}

fn parse_letter(words: &mut Words) -> Result<Letter, String> {
    let name = words.next("first, relay or ok")?;
    let (_, kind) = KINDS
        .into_iter()
        .find(|(known, _)| *known == name)
        .ok_or_else(|| format!("a letter is first, relay or ok, not '{name}'"))?;
    let message = words.number("a message")?;
    words.expect("from")?;
    let from = words.number("a process")?;
    words.expect("to")?;
    let to = words.number("a process")?;
    Ok(Letter { message, kind, from, to })
}

/// Eight bytes that have no other line.
fn parse_bytes(words: &mut Words, first: bool) -> Result<Record, String> {
    let mut record = [0; 8];
    for byte in &mut record {
        *byte = words.hex_byte()?;
    }
    let line = print(&record, first);
    if line.starts_with("bytes") {
        Ok(record)
    } else {
        Err(format!("these bytes are written '{line}'"))
    }
}
