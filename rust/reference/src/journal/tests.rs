use super::*;

/// Records whose bytes are all different from their neighbours' and none zero.
fn records(count: usize) -> Vec<u8> {
    (0..count * RECORD).map(|i| (i % 251 + 1) as u8).collect()
}

fn journal(count: usize) -> Vec<u8> {
    let records = records(count);
    let mut out = vec![0xAA; length(records.len()).unwrap()];
    write(&records, &mut out).unwrap();
    out
}

/// Makes the check of block `number` anew.
fn repair(journal: &mut [u8], number: usize) {
    let block = &mut journal[number * BLOCK..(number + 1) * BLOCK];
    let check = check(block);
    block[CHECK_AT..].copy_from_slice(&check.to_be_bytes());
}

/// Changes a byte of block `number`, makes its check anew, and counts.
fn count_with(blocks_of: usize, number: usize, at: usize, byte: u8) -> Result<usize, Refusal> {
    let mut journal = journal(blocks_of);
    journal[number * BLOCK + at] = byte;
    repair(&mut journal, number);
    count(&journal)
}

#[test]
fn setup_alone_has_check_fefe() {
    let setup = [0, 1, 0, 0, 0, 0, 0, 0];
    let mut out = [0xAA; BLOCK];
    write(&setup, &mut out).unwrap();
    assert_eq!(out[..4], [0, 0, 1, 0]);
    assert_eq!(out[4..12], setup);
    assert!(out[12..510].iter().all(|&byte| byte == 0));
    assert_eq!(out[510..], [0xFE, 0xFE]);
}

#[test]
fn lengths() {
    for (count, blocks) in [(1, 1), (62, 1), (63, 1), (64, 2), (126, 2), (127, 3), (8_063, 128), (8_064, 128)]
    {
        assert_eq!(length(count * RECORD), Ok(blocks * BLOCK), "{count} records");
    }
    for bytes in [0, 1, 7, 9, 8_064 * 8 - 1, 8_064 * 8 + 1, 8_065 * 8, usize::MAX, usize::MAX - 7] {
        assert_eq!(length(bytes), Err(Refusal::RecordsLength), "{bytes} bytes");
    }
}

#[test]
fn what_is_written_is_read() {
    for number in [1, 2, 62, 63, 64, 126, 127, 8_063, 8_064] {
        let journal = journal(number);
        assert_eq!(count(&journal), Ok(number));
        let mut out = vec![0xAA; number * RECORD];
        assert_eq!(read(&journal, &mut out), Ok(()));
        assert_eq!(out, records(number));
    }
}

#[test]
fn blocks_are_numbered_low_byte_first_and_full_but_the_last() {
    let journal = journal(8_064 - 62);
    for (number, block) in journal.chunks(BLOCK).enumerate() {
        assert_eq!(block[..4], [number as u8, 0, if number == 127 { 1 } else { 63 }, 0]);
    }
}

#[test]
fn writing_refuses_records_then_output() {
    let mut out = vec![0xAA; 128 * BLOCK];
    for bytes in [0, 1, 12, 8_065 * 8] {
        assert_eq!(write(&vec![1; bytes], &mut out), Err(Refusal::RecordsLength));
        assert_eq!(write(&vec![1; bytes], &mut []), Err(Refusal::RecordsLength));
    }
    for length in [0, BLOCK - 1, BLOCK + 1, 2 * BLOCK] {
        assert_eq!(write(&records(63), &mut out[..length]), Err(Refusal::OutputLength));
    }
    assert!(out.iter().all(|&byte| byte == 0xAA));
}

#[test]
fn reading_refuses_a_length() {
    let long = vec![0; 65_536 + 512];
    for length in [0, 1, 511, 513, 1_000, 65_535, 65_537, 65_536 + 512] {
        assert_eq!(count(&long[..length]), Err(Refusal::JournalLength), "{length} bytes");
    }
    assert_eq!(count(&long[..65_536]), Err(Refusal::Check));
}

#[test]
fn reading_refuses_a_wrong_check() {
    for at in [0, 2, 3, 4, 300, 508, 509, 510, 511] {
        let mut journal = journal(64);
        journal[BLOCK + at] ^= 0x10;
        assert_eq!(count(&journal), Err(Refusal::Check), "byte {at}");
    }
}

#[test]
fn ffff_does_not_stand_for_0000() {
    // The words 0000, 0100 and FEFF sum to FFFF: the check is 0000.
    let mut journal = vec![0; BLOCK];
    journal[2] = 1;
    journal[4..6].copy_from_slice(&[0xFE, 0xFF]);
    assert_eq!(count(&journal), Ok(1));
    journal[510..].copy_from_slice(&[0xFF, 0xFF]);
    assert_eq!(count(&journal), Err(Refusal::Check));
}

#[test]
fn zero_block_has_check_ffff_and_no_records() {
    let mut journal = vec![0; BLOCK];
    assert_eq!(count(&journal), Err(Refusal::Check));
    journal[510..].copy_from_slice(&[0xFF, 0xFF]);
    assert_eq!(count(&journal), Err(Refusal::Block));
}

#[test]
fn reading_refuses_every_other_rule() {
    let refused = Err(Refusal::Block);
    assert_eq!(count_with(64, 1, 0, 0), refused, "block number");
    assert_eq!(count_with(64, 1, 1, 1), refused, "block number, high byte");
    assert_eq!(count_with(64, 0, 2, 62), refused, "too few before the last");
    assert_eq!(count_with(63, 0, 2, 64), refused, "64 records");
    assert_eq!(count_with(63, 0, 2, 255), refused, "255 records");
    assert_eq!(count_with(1, 0, 2, 0), refused, "no record");
    assert_eq!(count_with(2, 0, 2, 1), refused, "unused record not zero");
    assert_eq!(count_with(1, 0, 3, 1), refused, "the zero after the count");
    assert_eq!(count_with(1, 0, 12, 1), refused, "first unused byte");
    assert_eq!(count_with(62, 0, 507, 1), refused, "last unused byte");
    assert_eq!(count_with(63, 0, 508, 1), refused, "first zero before the check");
    assert_eq!(count_with(63, 0, 509, 1), refused, "second zero before the check");
    assert_eq!(count_with(63, 0, 507, 1), Ok(63), "a used byte");
    assert_eq!(count_with(1, 0, 2, 63), Ok(63), "zero records taken as used");
}

#[test]
fn refusals_go_block_by_block() {
    let mut journal = journal(64);
    journal[2] = 62;
    repair(&mut journal, 0);
    journal[BLOCK + 300] = 1;
    assert_eq!(count(&journal), Err(Refusal::Block), "15 in block 0 before 14 in block 1");
    journal[300] ^= 1;
    assert_eq!(count(&journal), Err(Refusal::Check), "14 before 15 in block 0");
    assert_eq!(read(&journal, &mut []), Err(Refusal::Check), "14 before 17");
}

#[test]
fn reading_refuses_the_output_last() {
    let journal = journal(64);
    let mut out = vec![0xAA; 66 * RECORD];
    for length in [0, 64 * RECORD - 1, 64 * RECORD + 1, 65 * RECORD, 63 * RECORD] {
        assert_eq!(read(&journal, &mut out[..length]), Err(Refusal::OutputLength), "{length} bytes");
    }
    assert_eq!(read(&journal[..513], &mut out), Err(Refusal::JournalLength));
    assert!(out.iter().all(|&byte| byte == 0xAA));
}
