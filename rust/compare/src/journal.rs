//! The journal: record lists to write, journals valid and damaged to read.

mod calls;
mod damage;
mod lists;

pub use damage::check_anew;

use crate::difference::{same, Difference};
use crate::tally::Tally;
use reference::random::Random;

pub const ANSWERS: &[(&str, &[u32])] = &[
    ("length", &[0, 16]),
    ("write", &[0, 16, 17]),
    ("count", &[0, 13, 14, 15]),
    ("read", &[0, 13, 14, 15, 17]),
];

enum Make {
    Records(fn(&mut Random) -> Vec<u8>),
    Journal(fn(&mut Random) -> Vec<u8>),
}

use Make::{Journal, Records};

/// The kinds of input, taken in turn.
const KINDS: &[(&str, Make)] = &[
    ("records, none", Records(lists::none)),
    ("records, no whole number", Records(lists::not_whole)),
    ("records, one", Records(lists::one)),
    ("records, within a block", Records(lists::within_a_block)),
    ("records, about full blocks", Records(lists::about_full_blocks)),
    ("records, long", Records(lists::long)),
    ("records, about the most", Records(lists::about_the_most)),
    ("journal, valid", Journal(damage::none)),
    ("journal, one bit changed", Journal(damage::bit)),
    ("journal, some bytes changed", Journal(damage::bytes)),
    ("journal, bit changed, check anew", Journal(damage::bit_checked)),
    ("journal, header changed, check anew", Journal(damage::header)),
    ("journal, record count, check anew", Journal(damage::count)),
    ("journal, record count, rest cleared, check anew", Journal(damage::count_cleared)),
    ("journal, unused byte set, check anew", Journal(damage::unused)),
    ("journal, zero byte set, check anew", Journal(damage::zeros)),
    ("journal, block number, check anew", Journal(damage::number)),
    ("journal, blocks exchanged", Journal(damage::blocks_exchanged)),
    ("journal, words exchanged", Journal(damage::words_exchanged)),
    ("journal, check 0000 or FFFF for it", Journal(damage::check_zero)),
    ("journal, check changed", Journal(damage::check)),
    ("journal, two damages", Journal(damage::two)),
    ("journal, block missing", Journal(damage::block_missing)),
    ("journal, block added", Journal(damage::block_added)),
    ("journal, length not whole", Journal(damage::length_not_whole)),
    ("journal, length about the limits", Journal(damage::length_limits)),
    ("journal, zeros", Journal(damage::zero_blocks)),
    ("journal, random bytes", Journal(damage::random_blocks)),
];

/// A journal of any kind.
pub fn damaged(random: &mut Random) -> Vec<u8> {
    loop {
        if let (_, Journal(make)) = &KINDS[random.below(KINDS.len())] {
            return make(random);
        }
    }
}

pub fn input(index: u64, random: &mut Random, tally: &mut Tally) -> Result<(), Difference> {
    let (kind, make) = &KINDS[(index % KINDS.len() as u64) as usize];
    tally.input(kind);
    match make {
        Records(make) => try_records(&make(random), random, tally),
        Journal(make) => try_journal(&make(random), random, tally),
    }
}

/// Writes the records into the right length and a wrong one; what is written reads back as the records.
fn try_records(records: &[u8], random: &mut Random, tally: &mut Tally) -> Result<(), Difference> {
    let length = calls::length(records.len(), tally)?;
    let wrong = wrong_length(random, length.unwrap_or(512));
    calls::write(records, wrong, random, tally)?;
    let journal = match calls::write(records, length.unwrap_or(512), random, tally)? {
        Some(journal) => journal,
        None => return Ok(()),
    };
    let count = calls::count(&journal, random, tally)?;
    same("count of what was written", count, Some(records.len() / 8))?;
    let back = calls::read(&journal, records.len(), random, tally)?;
    same("records read from what was written", back.as_deref(), Some(records))
}

/// Counts and reads the journal, into the right length and a wrong one; the records of an accepted one, written,
/// are the journal.
fn try_journal(journal: &[u8], random: &mut Random, tally: &mut Tally) -> Result<(), Difference> {
    let count = calls::count(journal, random, tally)?;
    let length = 8 * count.unwrap_or(63);
    let wrong = wrong_length(random, length);
    calls::read(journal, wrong, random, tally)?;
    if let Some(records) = calls::read(journal, length, random, tally)? {
        let back = calls::write(&records, journal.len(), random, tally)?;
        same("journal written from what was read", back.as_deref(), Some(journal))?;
    }
    Ok(())
}

fn wrong_length(random: &mut Random, right: usize) -> usize {
    match random.below(8) {
        0 => 0,
        1 => right - 1,
        2 => right + 1,
        3 => right - 8,
        4 => right + 8,
        5 => right + 512,
        6 => right.saturating_sub(512),
        _ => random.below(2 * right),
    }
}
