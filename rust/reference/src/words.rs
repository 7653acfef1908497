//! The words of a world, by the layout: first words, a block for each process, a block for each message, unused words.

use crate::world::{Kind, Letter, Message, Process, ProcessSet, Table, World, GROUPS, MESSAGES, PROCESSES};
use std::collections::BTreeSet;

/// The words of a world.
pub const WORDS: usize = 20_480;

const SIZE: usize = 0;
const COUNT: usize = 1;
const PROCESS_BLOCKS: usize = 3;
const PROCESS_BLOCK: usize = 429;
const MESSAGE_BLOCKS: usize = PROCESS_BLOCKS + PROCESSES * PROCESS_BLOCK;
const MESSAGE_BLOCK: usize = 187;

/// The parts of a process's block.
mod process {
    pub const GROUP: usize = 0;
    pub const TRUST: usize = 1;
    pub const COUNTERS: usize = 2;
    pub const SEQUENCE_COUNTS: usize = 130;
    pub const NEXT: usize = 138;
    pub const DEL: usize = 154;
    pub const UP: usize = 170;
    pub const FIFO_LENGTH: usize = 171;
    pub const CAUSAL_LENGTH: usize = 172;
    pub const HELD: usize = 173;
    pub const MARKS: usize = 237;
    pub const FIFO_LOG: usize = 301;
    pub const CAUSAL_LOG: usize = 365;
}

/// The parts of a message's block.
mod message {
    pub const SENDER: usize = 0;
    pub const GROUPS: usize = 1;
    pub const COUNTERS: usize = 2;
    pub const SEQUENCE_NUMBERS: usize = 130;
    pub const FLIGHT: usize = 138;
    pub const ORDER: usize = 186;
}

const KINDS: [Kind; 3] = [Kind::First, Kind::Relay, Kind::Ok];

/// The place of a log in the words of a world: where it starts, and where its length stands.
pub fn log_place(process: usize, causal: bool) -> (usize, usize) {
    let block = PROCESS_BLOCKS + process * PROCESS_BLOCK;
    if causal {
        (block + process::CAUSAL_LOG, block + process::CAUSAL_LENGTH)
    } else {
        (block + process::FIFO_LOG, block + process::FIFO_LENGTH)
    }
}

/// The place of a message's order number in the words of a world.
pub fn order_place(message: usize) -> usize {
    MESSAGE_BLOCKS + message * MESSAGE_BLOCK + message::ORDER
}

/// The words of a world.
pub fn encode(world: &World) -> Vec<u16> {
    let mut words = vec![0; WORDS];
    words[SIZE] = world.processes.len() as u16;
    words[COUNT] = world.messages.len() as u16;
    for (p, process) in world.processes.iter().enumerate() {
        encode_process(process, &mut words[PROCESS_BLOCKS + p * PROCESS_BLOCK..][..PROCESS_BLOCK]);
    }
    for (m, message) in world.messages.iter().enumerate() {
        encode_message(message, &mut words[MESSAGE_BLOCKS + m * MESSAGE_BLOCK..][..MESSAGE_BLOCK]);
    }
    for letter in &world.flight {
        let block = MESSAGE_BLOCKS + letter.message * MESSAGE_BLOCK;
        words[block + message::FLIGHT + letter.kind as usize * PROCESSES + letter.from] |= 1 << letter.to;
    }
    words
}

fn encode_process(process: &Process, block: &mut [u16]) {
    block[process::GROUP] = process.group as u16;
    block[process::TRUST] = mask_of(&process.trust);
    encode_table(&process.counters, &mut block[process::COUNTERS..]);
    block[process::SEQUENCE_COUNTS..][..GROUPS].copy_from_slice(&process.sequence_counts);
    block[process::NEXT..][..PROCESSES].copy_from_slice(&process.next);
    block[process::DEL..][..PROCESSES].copy_from_slice(&process.del);
    block[process::UP] = u16::from(process.up);
    for m in 0..MESSAGES {
        block[process::HELD + m] = u16::from(process.held[m]);
        block[process::MARKS + m] = mask_of(&process.marks[m]);
    }
    block[process::FIFO_LENGTH] = process.fifo_log.len() as u16;
    block[process::CAUSAL_LENGTH] = process.causal_log.len() as u16;
    for (i, item) in process.fifo_log.iter().enumerate() {
        block[process::FIFO_LOG + i] = *item as u16;
    }
    for (i, item) in process.causal_log.iter().enumerate() {
        block[process::CAUSAL_LOG + i] = *item as u16;
    }
}

fn encode_message(message: &Message, block: &mut [u16]) {
    block[message::SENDER] = message.sender as u16;
    block[message::GROUPS] = mask_of(&message.groups);
    encode_table(&message.counters, &mut block[message::COUNTERS..]);
    block[message::SEQUENCE_NUMBERS..][..GROUPS].copy_from_slice(&message.sequence_numbers);
    block[message::ORDER] = message.order;
}

fn encode_table(table: &Table, block: &mut [u16]) {
    for (g, row) in table.iter().enumerate() {
        block[g * PROCESSES..][..PROCESSES].copy_from_slice(row);
    }
}

fn mask_of(set: &[bool]) -> u16 {
    set.iter().enumerate().map(|(i, &is)| u16::from(is) << i).sum()
}

/// The world that the words of existing processes, groups and messages give; all other words are left out. None
/// where there are more of these, or longer logs, than a world has room for.
pub fn decode(words: &[u16]) -> Option<World> {
    let n = usize::from(words[SIZE]);
    let count = usize::from(words[COUNT]);
    if !(1..=PROCESSES).contains(&n) || count > MESSAGES {
        return None;
    }
    let block = |p: usize| &words[PROCESS_BLOCKS + p * PROCESS_BLOCK..][..PROCESS_BLOCK];
    let groups = 1 + (0..n).map(|p| usize::from(block(p)[process::GROUP])).max()?;
    if groups > GROUPS {
        return None;
    }
    let sizes = Sizes { n, groups, count };
    let processes = (0..n).map(|p| decode_process(block(p), &sizes)).collect::<Option<_>>()?;
    let mut messages = Vec::new();
    let mut flight = BTreeSet::new();
    for m in 0..count {
        let block = &words[MESSAGE_BLOCKS + m * MESSAGE_BLOCK..][..MESSAGE_BLOCK];
        messages.push(decode_message(block, &sizes));
        decode_letters(m, block, &sizes, &mut flight);
    }
    Some(World { processes, messages, flight })
}

/// How many processes, groups and messages there are.
struct Sizes {
    n: usize,
    groups: usize,
    count: usize,
}

fn decode_process(block: &[u16], sizes: &Sizes) -> Option<Process> {
    let fifo_length = usize::from(block[process::FIFO_LENGTH]);
    let causal_length = usize::from(block[process::CAUSAL_LENGTH]);
    if fifo_length > MESSAGES || causal_length > MESSAGES {
        return None;
    }
    let log = |at: usize, length: usize| block[at..at + length].iter().map(|&m| usize::from(m)).collect();
    let mut held = [false; MESSAGES];
    let mut marks = [[false; PROCESSES]; MESSAGES];
    for m in 0..sizes.count {
        held[m] = block[process::HELD + m] != 0;
        marks[m] = set_of(block[process::MARKS + m]);
    }
    Some(Process {
        group: usize::from(block[process::GROUP]),
        up: block[process::UP] != 0,
        trust: set_of(block[process::TRUST]),
        counters: decode_table(&block[process::COUNTERS..], sizes),
        sequence_counts: first(&block[process::SEQUENCE_COUNTS..], sizes.groups),
        next: first(&block[process::NEXT..], sizes.n),
        del: first(&block[process::DEL..], sizes.n),
        held,
        marks,
        fifo_log: log(process::FIFO_LOG, fifo_length),
        causal_log: log(process::CAUSAL_LOG, causal_length),
    })
}

fn decode_message(block: &[u16], sizes: &Sizes) -> Message {
    let mut groups = [false; GROUPS];
    groups.copy_from_slice(&set_of(block[message::GROUPS])[..GROUPS]);
    Message {
        sender: usize::from(block[message::SENDER]),
        groups,
        counters: decode_table(&block[message::COUNTERS..], sizes),
        sequence_numbers: first(&block[message::SEQUENCE_NUMBERS..], sizes.groups),
        order: block[message::ORDER],
    }
}

fn decode_letters(message: usize, block: &[u16], sizes: &Sizes, flight: &mut BTreeSet<Letter>) {
    for kind in KINDS {
        for from in 0..sizes.n {
            let receivers = set_of(block[message::FLIGHT + kind as usize * PROCESSES + from]);
            for to in (0..PROCESSES).filter(|&to| receivers[to]) {
                flight.insert(Letter { message, kind, from, to });
            }
        }
    }
}

fn decode_table(block: &[u16], sizes: &Sizes) -> Table {
    let mut table = [[0; PROCESSES]; GROUPS];
    for (g, row) in table.iter_mut().enumerate().take(sizes.groups) {
        *row = first(&block[g * PROCESSES..], sizes.n);
    }
    table
}

/// The first words, and zeros after.
fn first<const LENGTH: usize>(words: &[u16], used: usize) -> [u16; LENGTH] {
    let mut array = [0; LENGTH];
    array[..used].copy_from_slice(&words[..used]);
    array
}

fn set_of(mask: u16) -> ProcessSet {
    let mut set = [false; PROCESSES];
    for (i, is) in set.iter_mut().enumerate() {
        *is = mask >> i & 1 == 1;
    }
    set
}
