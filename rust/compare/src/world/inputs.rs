//! Random worlds, setups, lengths and journals.

use super::fresh;
use crate::journal::check_anew;
use crate::lent::Lent;
use reference::journal as second;
use reference::random::Random;
use reference::record::{self, Record};
use reference::sample::{self, CALM, FLOOD, RACE, STORM, WRONG};
use reference::words::{encode, WORDS};
use reference::world::World;

/// Where a list of steps starts.
#[derive(Clone, Copy)]
pub enum Start {
    Fresh,
    /// Any sound world, reached by no list mostly.
    Sound,
}

pub fn start(random: &mut Random, start: Start) -> World {
    let most = if random.one_in(2) { 16 } else { 5 };
    match start {
        Start::Fresh => fresh(&sample::setup(random, most)),
        Start::Sound => sample::sound_world(random, most),
    }
}

/// A world after some steps.
pub fn world(random: &mut Random, starts: &[Start]) -> World {
    let from = random.pick(starts);
    let mut world = start(random, from);
    let weights = random.pick(&[CALM, RACE, STORM, FLOOD]);
    let most = random.pick(&[1, 20, 200, 1000]);
    for _ in 0..random.below(most) {
        let step = sample::step(random, &world, &weights);
        let _ = world.step(&step);
    }
    world
}

/// A world to settle: one time in two with some processes crashed.
pub fn to_settle(random: &mut Random, start: Start) -> World {
    let mut world = world(random, &[start]);
    if random.one_in(2) {
        crashes(random, &mut world);
    }
    world
}

/// A budget for a settle that needs so many arrivals, with its kind.
pub fn budget(random: &mut Random, needed: u32) -> (&'static str, u32) {
    match random.below(6) {
        0 => ("settle, none allowed", 0),
        1 => ("settle, as many as needed", needed),
        2 => ("settle, one fewer than needed", needed.max(1) - 1),
        3 => ("settle, all allowed", u32::MAX),
        _ => ("settle, any budget", random.below(needed as usize + 10) as u32),
    }
}

/// Crashes some processes, whose letters are left in flight; one time in two nothing else is to come.
fn crashes(random: &mut Random, world: &mut World) {
    let alone = random.one_in(2);
    if alone {
        world.settle(u32::MAX);
    }
    for _ in 0..random.between(1, world.processes.len()) {
        let process = random.below(world.processes.len());
        if alone {
            let mask = random.between(1, (1 << world.groups()) - 1) as u8;
            let _ = world.step(&record::multicast(process, mask));
        }
        let _ = world.step(&record::crash(process));
    }
}

/// Crashes the first processes, up to the last but one.
pub fn crash_first(random: &mut Random, world: &mut World) {
    let last = world.processes.len() - 1;
    let some = random.between(0, last);
    for process in 0..random.pick(&[some, last]) {
        let _ = world.step(&record::crash(process));
    }
}

/// The length of a world, or one time in so many another.
pub fn length(random: &mut Random, wrong: usize) -> usize {
    if !random.one_in(wrong) {
        return WORDS;
    }
    match random.below(5) {
        0 => WORDS - 1,
        1 => WORDS + 1,
        2 => 0,
        3 => random.below(WORDS),
        _ => WORDS + random.below(1000),
    }
}

/// The words of a world, or one time in so many with a word changed, and one time in as many cut or made longer.
pub fn words(random: &mut Random, world: &World, wrong: usize) -> Vec<u16> {
    let mut words = encode(world);
    if random.one_in(wrong) {
        let at = random.below(WORDS);
        words[at] = other_word(random, words[at]);
    }
    words.resize(length(random, wrong), 0);
    words
}

/// The second slice of a preview.
pub struct SecondSlice {
    pub words: Lent<u16>,
    /// What it holds: 0 any words, 1 a sound world, 2 the words that are previewed.
    pub kind: usize,
}

pub const SLICE_KINDS: usize = 3;
/// Wrong lengths that must have been tried.
pub const SLICE_LENGTHS: [usize; 3] = [0, WORDS - 1, WORDS + 1];

/// A second slice for a preview of these words: of the length of a world, or one time in so many of another.
pub fn second_slice(random: &mut Random, words: &[u16], wrong: usize) -> SecondSlice {
    let kind = random.below(SLICE_KINDS);
    let length = length(random, wrong);
    let mut held = match kind {
        0 => return SecondSlice { words: Lent::room(random, length), kind },
        1 => encode(&start(random, Start::Fresh)),
        _ => words.to_vec(),
    };
    held.resize(length, 0);
    SecondSlice { words: Lent::holding(random, &held), kind }
}

/// Some word that is not this one.
pub fn other_word(random: &mut Random, word: u16) -> u16 {
    let other = match random.below(8) {
        0 => word.wrapping_add(1),
        1 => word.wrapping_sub(1),
        2 | 3 => word ^ 1 << random.below(16),
        4 => 0,
        5 => random.below(66) as u16,
        6 => 0xFFFF,
        _ => random.next() as u16,
    };
    if other == word {
        word ^ 1
    } else {
        other
    }
}

/// A message to ask for: one of these words, the next, or one far beyond.
pub fn message(random: &mut Random, words: &[u16]) -> u32 {
    let count = words.get(1).map_or(0, |&count| u32::from(count));
    match random.below(8) {
        0 => count,
        1 => random.pick(&[63, 64, 255, u32::MAX]),
        _ => random.below(count as usize + 1) as u32,
    }
}

/// Pairs to ask about, and room for their answers.
pub struct Asked {
    pub pairs: Lent<u16>,
    pub answers: Lent<u8>,
}

impl Asked {
    /// These pairs, and room for so many answers, with random content.
    pub fn new(random: &mut Random, pairs: &[u16], answers: usize) -> Asked {
        Asked { pairs: Lent::holding(random, pairs), answers: Lent::room(random, answers) }
    }
}

/// A few pairs, whose messages mostly are of these words, with as many answers mostly.
pub fn asked(random: &mut Random, words: &[u16]) -> Asked {
    let length = random.between(0, 8) / 2 * 2 + usize::from(random.one_in(8));
    let answers = (length + random.pick(&[0, 0, 0, 2])) / 2;
    let count = words.get(1).map_or(0, |&count| usize::from(count));
    let pairs: Vec<u16> = (0..length).map(|_| random.below(count + 1) as u16).collect();
    Asked::new(random, &pairs, answers)
}

/// Some step for a world that need not be sound.
pub fn any_step(random: &mut Random) -> Vec<u8> {
    let kind = random.below(4) as u8;
    let operands = [random.below(17), random.below(4), random.below(4)].map(|byte| byte as u8);
    match random.below(6) {
        0 => vec![2, kind, operands[0], operands[1], operands[2], 0, 0, 0],
        1 => vec![3, kind, operands[0], operands[1], operands[2], 0, 0, 0],
        2 => record::multicast_with_order(operands[1].into(), operands[2], sample::order(random)).to_vec(),
        3 => record::trust(operands[1].into(), random.next() as u16).to_vec(),
        4 => record::crash(operands[0].into()).to_vec(),
        _ => random.bytes(8),
    }
}

/// A setup, valid or wrong in one way.
pub fn setup(random: &mut Random) -> Vec<u8> {
    let mut setup = sample::setup(random, 16);
    match random.below(8) {
        0 => setup[0] = random.byte(),
        1 => setup[1] = random.pick(&[0, 15, 16, 17, 255]),
        2 => setup[random.between(2, 7)] ^= 1 << random.below(8),
        3 => return record::setup(&[0, random.below(8), random.below(8)]).to_vec(),
        4 => return [setup, setup].concat()[..random.below(17)].to_vec(),
        _ => {}
    }
    setup.to_vec()
}

/// A setup and some steps that it mostly takes.
fn records(random: &mut Random, any_setup: bool) -> Vec<Record> {
    let valid = sample::setup(random, 16);
    let mut first = valid;
    if any_setup {
        let setup = setup(random);
        let length = setup.len().min(8);
        first[..length].copy_from_slice(&setup[..length]);
    }
    let mut world = fresh(&valid);
    let mut records = vec![first];
    let weights = random.pick(&[CALM, RACE, STORM, FLOOD, WRONG]);
    let most = if random.one_in(500) { 8_064 } else { random.pick(&[1, 8, 64, 130, 300]) };
    for _ in 0..random.below(most) {
        let mut step = sample::step(random, &world, &weights);
        let _ = world.step(&step);
        step.resize(8, 0);
        let mut record = [0; 8];
        record.copy_from_slice(&step);
        records.push(record);
    }
    records
}

pub fn journal(random: &mut Random, any_setup: bool) -> Vec<u8> {
    let records = records(random, any_setup).concat();
    let mut journal = vec![0; second::length(records.len()).expect("a list that can be written")];
    second::write(&records, &mut journal).expect("the right length");
    journal
}

/// A journal of steps with a byte changed, the check made anew or not.
pub fn damaged_journal(random: &mut Random) -> Vec<u8> {
    let any_setup = random.one_in(4);
    let mut journal = journal(random, any_setup);
    let at = random.below(journal.len());
    journal[at] = random.byte();
    if random.one_in(2) {
        check_anew(&mut journal, at / second::BLOCK * second::BLOCK);
    }
    journal
}
