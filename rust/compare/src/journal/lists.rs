//! Record lists of every length.

use reference::journal::{BLOCKS, RECORD, RECORDS_IN_BLOCK};
use reference::random::Random;

const MOST: usize = BLOCKS * RECORDS_IN_BLOCK;

pub fn none(_: &mut Random) -> Vec<u8> {
    Vec::new()
}

pub fn not_whole(random: &mut Random) -> Vec<u8> {
    let whole = if random.one_in(16) { random.below(MOST + 64) } else { random.below(130) };
    let over = random.between(1, RECORD - 1);
    content(random, RECORD * whole + over)
}

pub fn one(random: &mut Random) -> Vec<u8> {
    content(random, RECORD)
}

pub fn within_a_block(random: &mut Random) -> Vec<u8> {
    let count = random.between(2, RECORDS_IN_BLOCK - 1);
    content(random, RECORD * count)
}

pub fn about_full_blocks(random: &mut Random) -> Vec<u8> {
    about(random, 1, 4)
}

pub fn long(random: &mut Random) -> Vec<u8> {
    if random.one_in(8) {
        about(random, 5, BLOCKS - 1)
    } else {
        about(random, 5, 16)
    }
}

pub fn about_the_most(random: &mut Random) -> Vec<u8> {
    if random.one_in(8) {
        return about(random, BLOCKS, BLOCKS);
    }
    let over = random.between(1, 200);
    content(random, RECORD * (MOST + over))
}

/// Records for a journal: short ones mostly.
pub fn any(random: &mut Random) -> Vec<u8> {
    match random.below(128) {
        0 => about(random, 5, BLOCKS - 1),
        1 => content(random, RECORD * MOST),
        2..=33 => about(random, 1, 3),
        34..=40 => {
            let count = random.between(1, 5 * RECORDS_IN_BLOCK);
            content(random, RECORD * count)
        }
        41..=55 => one(random),
        _ => within_a_block(random),
    }
}

/// Records for a journal of at least two blocks.
pub fn of_blocks(random: &mut Random) -> Vec<u8> {
    let more = random.between(1, RECORDS_IN_BLOCK);
    let blocks = if random.one_in(64) { random.between(1, BLOCKS - 1) } else { random.between(1, 3) };
    content(random, RECORD * (blocks * RECORDS_IN_BLOCK + more))
}

/// Records for a journal whose last block has an unused record.
pub fn not_full(random: &mut Random) -> Vec<u8> {
    let blocks = if random.one_in(64) { random.below(BLOCKS) } else { random.below(3) };
    let more = random.between(1, RECORDS_IN_BLOCK - 1);
    content(random, RECORD * (blocks * RECORDS_IN_BLOCK + more))
}

/// One record fewer than so many full blocks, as many, or one more; never over the most.
fn about(random: &mut Random, first: usize, last: usize) -> Vec<u8> {
    let count = random.between(first, last) * RECORDS_IN_BLOCK + random.below(3) - 1;
    content(random, RECORD * count.min(MOST))
}

/// Bytes of records: random, the same throughout, or few that are not zero.
fn content(random: &mut Random, length: usize) -> Vec<u8> {
    match random.below(8) {
        0 => vec![random.pick(&[0, 0xFF, 1, 0x80]); length],
        1 if length > 0 => {
            let mut bytes = vec![0; length];
            for _ in 0..4 {
                bytes[random.below(length)] = random.byte();
            }
            bytes
        }
        _ => random.bytes(length),
    }
}
