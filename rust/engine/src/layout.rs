//! What stands in the words of a sound world, by docs/LAYOUT.md.

use crate::{Letter, LetterKind, PROCESSES};

const SIZE: usize = 0;
const COUNT: usize = 1;
const PROCESS_BLOCKS: usize = 3;
const PROCESS_BLOCK: usize = 429;
const GROUP: usize = 0;
const TRUST: usize = 1;
const UP: usize = 170;
const MESSAGE_BLOCKS: usize = PROCESS_BLOCKS + PROCESSES * PROCESS_BLOCK;
const MESSAGE_BLOCK: usize = 187;
const SENDER: usize = 0;
const GROUPS: usize = 1;
const FLIGHT: usize = 138;

pub fn processes(words: &[u16]) -> usize {
    usize::from(words[SIZE])
}

pub fn messages(words: &[u16]) -> usize {
    usize::from(words[COUNT])
}

pub fn is_up(words: &[u16], process: u8) -> bool {
    usize::from(process) < PROCESSES && words[of_process(process) + UP] == 1
}

pub fn group(words: &[u16], process: u8) -> Option<u8> {
    (usize::from(process) < processes(words)).then(|| words[of_process(process) + GROUP] as u8)
}

pub fn trust_mask(words: &[u16], process: u8) -> Option<u16> {
    (usize::from(process) < processes(words)).then(|| words[of_process(process) + TRUST])
}

pub fn sender(words: &[u16], message: u8) -> Option<u8> {
    (usize::from(message) < messages(words)).then(|| words[of_message(message) + SENDER] as u8)
}

pub fn group_mask(words: &[u16], message: u8) -> Option<u8> {
    (usize::from(message) < messages(words)).then(|| words[of_message(message) + GROUPS] as u8)
}

pub fn letters(words: &[u16]) -> Vec<Letter> {
    let mut letters = Vec::new();
    for message in 0..messages(words) as u8 {
        for kind in LetterKind::ALL {
            for from in 0..processes(words) as u8 {
                let receivers = words[of_message(message) + FLIGHT + place(kind, from)];
                if receivers != 0 {
                    let flying = (0..PROCESSES as u8).filter(|to| receivers >> to & 1 == 1);
                    letters.extend(flying.map(|to| Letter { message, kind, from, to }));
                }
            }
        }
    }
    letters
}

fn of_process(process: u8) -> usize {
    PROCESS_BLOCKS + usize::from(process) * PROCESS_BLOCK
}

fn of_message(message: u8) -> usize {
    MESSAGE_BLOCKS + usize::from(message) * MESSAGE_BLOCK
}

fn place(kind: LetterKind, from: u8) -> usize {
    usize::from(kind.number()) * PROCESSES + usize::from(from)
}
