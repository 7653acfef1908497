//! Each call on both sides: the answers are the same, the lent bytes too, and as they were on a refusal. The value
//! of an accepted call is returned, none for a refused one.

use crate::difference::{same, Difference};
use crate::lent::Lent;
use crate::tally::{number, Tally};
use engine::raw;
use reference::random::Random;
use reference::{journal as second, Refusal};

pub fn length(records_length: usize, tally: &mut Tally) -> Result<Option<usize>, Difference> {
    let before = 0xA5A5_5A5A;
    let mut length = before;
    let answer = raw::journal_length(records_length, &mut length);
    let expected = second::length(records_length);
    tally.answer("length", number(&expected));
    same("length: answer", answer, number(&expected))?;
    same("length: lent number", length, expected.map_or(before, |value| value as u32))?;
    let wrapped = engine::journal::length(records_length).map_err(|refusal| refusal.number());
    same("length: wrapper", wrapped, expected.map_err(Refusal::number))?;
    Ok(expected.ok())
}

pub fn write(
    records: &[u8],
    length: usize,
    random: &mut Random,
    tally: &mut Tally,
) -> Result<Option<Vec<u8>>, Difference> {
    let records = Lent::holding(random, records);
    let room = Lent::room(random, length);
    let lent = records.clone();
    let (mut out, mut expected_out) = (room.clone(), room.clone());
    let answer = engine::journal::write(lent.part(), out.part_mut()).map_err(|refusal| refusal.number());
    let expected = second::write(records.part(), expected_out.part_mut());
    tally.answer("write", number(&expected));
    same("write: answer", answer, expected.map_err(Refusal::number))?;
    lent.same(&records, "write: lent records")?;
    settled("write: output", &out, &expected_out, &room, expected)
}

pub fn count(journal: &[u8], random: &mut Random, tally: &mut Tally) -> Result<Option<usize>, Difference> {
    let journal = Lent::holding(random, journal);
    let lent = journal.clone();
    let before = random.next() as u32;
    let mut count = before;
    let answer = raw::journal_count(lent.part(), &mut count);
    let expected = second::count(journal.part());
    tally.answer("count", number(&expected));
    same("count: answer", answer, number(&expected))?;
    same("count: lent number", count, expected.map_or(before, |value| value as u32))?;
    let wrapped = engine::journal::count(lent.part()).map_err(|refusal| refusal.number());
    same("count: wrapper", wrapped, expected.map_err(Refusal::number))?;
    lent.same(&journal, "count: lent journal")?;
    Ok(expected.ok())
}

pub fn read(
    journal: &[u8],
    length: usize,
    random: &mut Random,
    tally: &mut Tally,
) -> Result<Option<Vec<u8>>, Difference> {
    let journal = Lent::holding(random, journal);
    let room = Lent::room(random, length);
    let lent = journal.clone();
    let (mut out, mut expected_out) = (room.clone(), room.clone());
    let answer = engine::journal::read(lent.part(), out.part_mut()).map_err(|refusal| refusal.number());
    let expected = second::read(journal.part(), expected_out.part_mut());
    tally.answer("read", number(&expected));
    same("read: answer", answer, expected.map_err(Refusal::number))?;
    lent.same(&journal, "read: lent journal")?;
    settled("read: records", &out, &expected_out, &room, expected)
}

/// The output of both sides is the same, and as it was if the call was refused.
fn settled(
    what: &str,
    out: &Lent<u8>,
    expected_out: &Lent<u8>,
    before: &Lent<u8>,
    answer: Result<(), Refusal>,
) -> Result<Option<Vec<u8>>, Difference> {
    out.same(expected_out, what)?;
    if answer.is_err() {
        out.same(before, &format!("{what} of a refused call"))?;
        return Ok(None);
    }
    Ok(Some(out.part().to_vec()))
}
