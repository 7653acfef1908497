//! The block journal: records of 8 bytes in blocks of 512 bytes with a checksum. Neither reading nor writing looks at
//! what records mean.

use crate::{raw, Record, Refusal};

/// The most bytes of a journal.
pub const BYTES: usize = 65_536;
/// The most records of a journal, its setup included.
pub const RECORDS: usize = 8_064;

/// The journal of the records. Refusal 16.
///
/// ```
/// use engine::{journal, Setup, Step};
///
/// let records = [Setup::new(&[0, 1])?.record(), Step::multicast(0, &[1])?.record()];
/// let bytes = journal::from_records(&records)?;
/// assert_eq!(bytes.len(), 512);
/// assert_eq!(journal::to_records(&bytes)?, records);
/// # Ok::<(), engine::Refusal>(())
/// ```
pub fn from_records(records: &[Record]) -> Result<Vec<u8>, Refusal> {
    let records = records.concat();
    let mut journal = vec![0; length(records.len())?];
    write(&records, &mut journal)?;
    Ok(journal)
}

/// The records of the journal. Refusals 13, 14, 15.
pub fn to_records(journal: &[u8]) -> Result<Vec<Record>, Refusal> {
    let mut bytes = vec![0; 8 * count(journal)?];
    read(journal, &mut bytes)?;
    let record = |part: &[u8]| {
        let mut record = [0; 8];
        record.copy_from_slice(part);
        record
    };
    Ok(bytes.chunks(8).map(record).collect())
}

/// Writes the records into `out`, which has exactly the length that `length` gives. Refusals 16, 17.
pub fn write(records: &[u8], out: &mut [u8]) -> Result<(), Refusal> {
    Refusal::check(raw::journal_write(records, out))
}

/// The length of the journal of so many bytes of records. Refusal 16.
pub fn length(records_length: usize) -> Result<usize, Refusal> {
    let mut length = 0;
    Refusal::check(raw::journal_length(records_length, &mut length))?;
    Ok(length as usize)
}

/// The number of records of the journal. Refusals 13, 14, 15.
pub fn count(journal: &[u8]) -> Result<usize, Refusal> {
    let mut count = 0;
    Refusal::check(raw::journal_count(journal, &mut count))?;
    Ok(count as usize)
}

/// Reads the journal's records into `records`, which is 8 bytes long for each. Refusals 13, 14, 15, 17.
pub fn read(journal: &[u8], records: &mut [u8]) -> Result<(), Refusal> {
    Refusal::check(raw::journal_read(journal, records))
}
