//! A journal's records as text, a line for each. The first record is a setup:
//!
//! ```text
//! setup groups 0 1 2              the groups of process 0, 1 and 2
//! multicast 0 to 1 2              process 0 multicasts to groups 1 and 2
//! multicast 0 to 2 order 1017     process 0 multicasts to group 2, with order number 1017
//! arrival first 1 from 0 to 2     a letter (first, relay or ok) of message 1 arrives
//! loss ok 1 from 0 to 2           a letter is lost
//! trust 2 in 0 1                  process 2 trusts processes 0 and 1, and no others
//! crash 0
//! bytes 09 00 00 00 00 00 00 00   a record that is none of these
//! ```
//!
//! An empty list is written `none`, and order number 0, which is no order, not at all. Every record has one line, and every
//! line is of one record. Between words there may be more spaces than one; what follows a `#` is a comment; empty lines are
//! left out.

mod line;
mod words;

use engine::{journal, Record};
use std::fmt;

/// A line that is refused: its number, from 1, and why.
#[derive(Clone, Debug, PartialEq, Eq)]
pub struct Fault {
    pub line: usize,
    pub reason: String,
}

impl fmt::Display for Fault {
    fn fmt(&self, f: &mut fmt::Formatter<'_>) -> fmt::Result {
        write!(f, "line {}: {}", self.line, self.reason)
    }
}

impl std::error::Error for Fault {}

/// The text of the records.
pub fn from_records(records: &[Record]) -> String {
    records.iter().enumerate().map(|(i, record)| line::print(record, i == 0) + "\n").collect()
}

/// The records of the text: at least one, and no more than a journal has room for.
pub fn to_records(text: &str) -> Result<Vec<Record>, Fault> {
    let mut records = Vec::new();
    for (i, line) in text.lines().enumerate() {
        let fault = |reason| Fault { line: i + 1, reason };
        let (meant, _comment) = line.split_once('#').unwrap_or((line, ""));
        if meant.trim().is_empty() {
            continue;
        }
        let record = line::parse(meant, records.is_empty()).map_err(fault)?;
        if records.len() == journal::RECORDS {
            return Err(fault("over 8,064 records, which is the most that a journal has".to_string()));
        }
        records.push(record);
    }
    if records.is_empty() {
        let line = text.lines().count().max(1);
        return Err(Fault {
            line,
            reason: "no record up to here; a journal has at least a setup".to_string(),
        });
    }
    Ok(records)
}

/// The records of text that is given as bytes.
pub fn bytes_to_records(bytes: &[u8]) -> Result<Vec<Record>, Fault> {
    match std::str::from_utf8(bytes) {
        Ok(text) => to_records(text),
        Err(error) => {
            let line = 1 + bytes[..error.valid_up_to()].iter().filter(|&&byte| byte == b'\n').count();
            Err(Fault { line, reason: "not text (UTF-8)".to_string() })
        }
    }
}
