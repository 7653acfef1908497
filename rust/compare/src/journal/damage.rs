//! Journals, valid and damaged. Some damages make the check anew, so that the rules behind it are reached.

use super::lists;
use reference::journal as second;
use reference::journal::{BLOCK, BLOCKS, RECORD, RECORDS_IN_BLOCK};
use reference::random::Random;

const CHECK_AT: usize = BLOCK - 2;

fn journal_of(records: &[u8]) -> Vec<u8> {
    let length = second::length(records.len()).expect("a list that can be written");
    let mut journal = vec![0; length];
    second::write(records, &mut journal).expect("the right length");
    journal
}

/// The place of a block of the journal: the first, the last or any.
fn any_block(random: &mut Random, journal: &[u8]) -> usize {
    let blocks = journal.len() / BLOCK;
    let number = match random.below(4) {
        0 => 0,
        1 => blocks - 1,
        _ => random.below(blocks),
    };
    number * BLOCK
}

/// Makes the check of the block at this place anew.
pub fn check_anew(journal: &mut [u8], block: usize) {
    let check = second::check(&journal[block..block + BLOCK]);
    journal[block + CHECK_AT..block + BLOCK].copy_from_slice(&check.to_be_bytes());
}

pub fn none(random: &mut Random) -> Vec<u8> {
    journal_of(&lists::any(random))
}

pub fn bit(random: &mut Random) -> Vec<u8> {
    let mut journal = none(random);
    let at = any_block(random, &journal) + random.below(BLOCK);
    journal[at] ^= 1 << random.below(8);
    journal
}

pub fn bytes(random: &mut Random) -> Vec<u8> {
    let mut journal = none(random);
    for _ in 0..random.between(1, 5) {
        let at = random.below(journal.len());
        journal[at] = random.byte();
    }
    journal
}

pub fn bit_checked(random: &mut Random) -> Vec<u8> {
    let mut journal = none(random);
    let block = any_block(random, &journal);
    journal[block + random.below(CHECK_AT)] ^= 1 << random.below(8);
    check_anew(&mut journal, block);
    journal
}

pub fn header(random: &mut Random) -> Vec<u8> {
    let mut journal = none(random);
    let block = any_block(random, &journal);
    journal[block + random.below(4)] = random.byte();
    check_anew(&mut journal, block);
    journal
}

pub fn count(random: &mut Random) -> Vec<u8> {
    let mut journal = if random.one_in(2) { none(random) } else { journal_of(&lists::of_blocks(random)) };
    let block = any_block(random, &journal);
    journal[block + 2] = random.pick(&[0, 1, 2, 62, 63, 64, 65, 127, 191, 255]);
    check_anew(&mut journal, block);
    journal
}

/// A lower record count with zeros after, as a block of fewer records has them: taken only in the last block.
pub fn count_cleared(random: &mut Random) -> Vec<u8> {
    let mut journal = journal_of(&lists::of_blocks(random));
    let block = any_block(random, &journal);
    let count = random.below(RECORDS_IN_BLOCK);
    journal[block + 2] = count as u8;
    journal[block + 4 + RECORD * count..block + CHECK_AT].fill(0);
    check_anew(&mut journal, block);
    journal
}

pub fn unused(random: &mut Random) -> Vec<u8> {
    let mut journal = journal_of(&lists::not_full(random));
    let block = journal.len() - BLOCK;
    let first = 4 + RECORD * usize::from(journal[block + 2]);
    let at = match random.below(4) {
        0 => first,
        1 => CHECK_AT - 3,
        _ => random.between(first, CHECK_AT - 3),
    };
    journal[block + at] = random.pick(&[1, 0x80, 0xFF, 0x10]);
    check_anew(&mut journal, block);
    journal
}

pub fn zeros(random: &mut Random) -> Vec<u8> {
    let mut journal = none(random);
    let block = any_block(random, &journal);
    journal[block + random.pick(&[3, CHECK_AT - 2, CHECK_AT - 1])] = random.pick(&[1, 0x80, 0xFF, 0x10]);
    check_anew(&mut journal, block);
    journal
}

/// A block number that is not its place: another's, high byte first, or over the most.
pub fn number(random: &mut Random) -> Vec<u8> {
    let mut journal = journal_of(&lists::of_blocks(random));
    let block = any_block(random, &journal);
    let number = block / BLOCK;
    let wrong = match random.below(5) {
        0 => number + 1,
        1 => number.max(1) - 1,
        2 => number * 256,
        3 => number + 256,
        _ => random.below(65_536),
    };
    journal[block..block + 2].copy_from_slice(&(wrong as u16).to_le_bytes());
    check_anew(&mut journal, block);
    journal
}

pub fn blocks_exchanged(random: &mut Random) -> Vec<u8> {
    let mut journal = journal_of(&lists::of_blocks(random));
    let blocks = journal.len() / BLOCK;
    let (first, second) = (random.below(blocks), random.below(blocks));
    exchange(&mut journal, first * BLOCK, second * BLOCK, BLOCK);
    journal
}

/// Two words of a block exchanged: its check stays right.
pub fn words_exchanged(random: &mut Random) -> Vec<u8> {
    let mut journal = none(random);
    let block = any_block(random, &journal);
    let from = if random.one_in(4) { 0 } else { 2 };
    let (first, second) = (random.between(from, 254), random.between(from, 254));
    exchange(&mut journal, block + 2 * first, block + 2 * second, 2);
    journal
}

fn exchange(bytes: &mut [u8], first: usize, second: usize, length: usize) {
    for i in 0..length {
        bytes.swap(first + i, second + i);
    }
}

/// A block whose words sum to FFFF: its check is 0000, and FFFF does not stand for it.
pub fn check_zero(random: &mut Random) -> Vec<u8> {
    let mut journal = none(random);
    let block = any_block(random, &journal);
    let word = block + 4 + 2 * random.below(4 * usize::from(journal[block + 2]));
    journal[word..word + 2].fill(0);
    let rest = second::check(&journal[block..block + BLOCK]);
    journal[word..word + 2].copy_from_slice(&rest.to_be_bytes());
    let check = if random.one_in(2) { 0x00 } else { 0xFF };
    journal[block + CHECK_AT..block + BLOCK].fill(check);
    journal
}

pub fn check(random: &mut Random) -> Vec<u8> {
    let mut journal = none(random);
    let block = any_block(random, &journal);
    let right = second::check(&journal[block..block + BLOCK]);
    let wrong = match random.below(7) {
        0 => right.wrapping_add(1),
        1 => right.wrapping_sub(1),
        2 => right.swap_bytes(),
        3 => !right,
        4 => 0,
        5 => 0xFFFF,
        _ => random.next() as u16,
    };
    journal[block + CHECK_AT..block + BLOCK].copy_from_slice(&wrong.to_be_bytes());
    journal
}

/// Two damages, each with the check made anew or not: the first block's counts, and in a block the check.
pub fn two(random: &mut Random) -> Vec<u8> {
    let mut journal = journal_of(&lists::of_blocks(random));
    for _ in 0..2 {
        let block = any_block(random, &journal);
        let at = random.pick(&[0, 1, 2, 3, CHECK_AT - 2, CHECK_AT - 1]);
        journal[block + at] ^= 1 << random.below(8);
        if random.one_in(2) {
            check_anew(&mut journal, block);
        }
    }
    journal
}

pub fn block_missing(random: &mut Random) -> Vec<u8> {
    let mut journal = journal_of(&lists::of_blocks(random));
    let block = any_block(random, &journal);
    journal.drain(block..block + BLOCK);
    journal
}

/// A block put in once more, or a last block numbered as the next one.
pub fn block_added(random: &mut Random) -> Vec<u8> {
    let mut journal = none(random);
    let block = any_block(random, &journal);
    let mut copy = journal[block..block + BLOCK].to_vec();
    let at = if random.one_in(2) { journal.len() } else { any_block(random, &journal) };
    if random.one_in(2) {
        copy[..2].copy_from_slice(&((at / BLOCK) as u16).to_le_bytes());
        check_anew(&mut copy, 0);
    }
    journal.splice(at..at, copy);
    journal
}

pub fn length_not_whole(random: &mut Random) -> Vec<u8> {
    let mut journal = none(random);
    let length = match random.below(5) {
        0 => journal.len() - 1,
        1 => journal.len() + 1,
        2 => journal.len() - random.between(1, BLOCK - 1),
        3 => journal.len() + random.between(1, BLOCK - 1),
        _ => random.below(BLOCK),
    };
    journal.resize(length, 0);
    journal
}

/// Lengths of none, all and more blocks than a journal has, of a valid journal as far as it goes.
pub fn length_limits(random: &mut Random) -> Vec<u8> {
    if random.one_in(2) {
        return Vec::new();
    }
    let most = BLOCKS * BLOCK;
    let length = match random.below(5) {
        0 => most,
        1 => most - 1,
        2 => most + 1,
        3 => most + BLOCK,
        _ => most + BLOCK * random.between(1, 4),
    };
    let mut journal = if random.one_in(4) { journal_of(&vec![7; RECORD * 8_064]) } else { none(random) };
    journal.resize(length, 0);
    journal
}

/// Blocks of zeros, with the check of zeros or without.
pub fn zero_blocks(random: &mut Random) -> Vec<u8> {
    let mut journal = vec![0; BLOCK * random.between(1, 3)];
    if random.one_in(2) {
        for block in (0..journal.len()).step_by(BLOCK) {
            check_anew(&mut journal, block);
        }
    }
    journal
}

pub fn random_blocks(random: &mut Random) -> Vec<u8> {
    let blocks = random.between(1, 3);
    let mut journal = random.bytes(BLOCK * blocks);
    if random.one_in(2) {
        check_anew(&mut journal, 0);
    }
    journal
}
