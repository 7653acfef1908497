//! The calls on a lent world: worlds sound and not, setups, lists of steps, previews, both settles, journals to replay,
//! whose message is awaited, and which of two messages came first.

pub mod awaited;
mod calls;
pub mod fair;
mod inputs;
pub mod precedes;
pub mod waiting;

use crate::difference::Difference;
use crate::lent::Lent;
use crate::tally::Tally;
use calls::{FAIR, LOWEST};
use inputs::{Start, SLICE_KINDS, SLICE_LENGTHS};
use reference::random::Random;
use reference::sample::{self, Weights, CALM, FLOOD, RACE, STORM, WRONG};
use reference::settle::Settled;
use reference::words::{encode, order_place, WORDS};
use reference::world::{Letter, World, MESSAGES};

/// The words that are changed one by one in one input, and the order words.
const CHANGED: usize = 32;
const ORDERS: usize = 8;
/// The steps of one input.
pub const STEPS: u64 = 200;

pub const ANSWERS: &[(&str, &[u32])] = &[
    ("make", &[0, 1, 3]),
    ("log", &[0, 1, 2, 5]),
    ("order, a number", &[0]),
    ("order, none", &[0]),
    ("order", &[1, 2, 7]),
    ("awaited", &[1, 2, 5, 7, 18]),
    ("precedes", &[0, 1, 2, 7, 19]),
    ("step", &[0, 1, 2, 4, 5, 6, 7, 8, 9, 10, 11, 12]),
    ("preview, none added", &[0]),
    ("preview, length of the world", &[1]),
    ("preview, length of the second slice", &[1]),
    ("preview", &[2, 4, 5, 6, 7, 8, 9, 10, 11]),
    ("settle, done", &[0]),
    ("settle, stopped", &[0]),
    ("settle", &[1, 2]),
    ("fair settle, done", &[0]),
    ("fair settle, stopped", &[0]),
    ("fair settle", &[1, 2]),
];
pub const COVER: &[(&str, usize)] = &[
    ("word changed", WORDS),
    ("order word of a message changed", MESSAGES),
    ("order word of an absent message changed", MESSAGES),
];

pub const STEP_ANSWERS: &[(&str, &[u32])] = &[
    ("step", &[0, 4, 5, 6, 7, 8, 9, 10, 11, 12]),
    ("order, a number", &[0]),
    ("order, none", &[0]),
    ("order", &[7]),
];
pub const STEP_COVER: &[(&str, usize)] = &[("order number multicast", MESSAGES)];

pub const PREVIEW_ANSWERS: &[(&str, &[u32])] = &[
    ("preview, none added", &[0]),
    ("preview, FIFO alone", &[0]),
    ("preview, fewer causal", &[0]),
    ("preview, as many causal", &[0]),
    ("preview, more causal", &[0]),
    ("preview, length of the world", &[1]),
    ("preview, length of the second slice", &[1]),
    ("preview", &[2, 4, 5, 6, 7, 8, 9, 10, 11, 12]),
];
pub const PREVIEW_COVER: &[(&str, usize)] = &[
    ("second slice where the step is taken", SLICE_KINDS),
    ("second slice where the world is not sound", SLICE_KINDS),
    ("wrong length of the second slice", SLICE_LENGTHS.len()),
    // 0, 1, 2 and 4 to 12.
    ("answer of the step where the second slice has a wrong length", 12),
];

pub const SETTLE_ANSWERS: &[(&str, &[u32])] = &[
    ("settle, done", &[0]),
    ("settle, stopped", &[0]),
    ("settle, done after a letter of a dead sender", &[0]),
    ("settle, stopped before letters of dead senders alone", &[0]),
    ("settle, done with letters left to a process that is down", &[0]),
];
/// Each is met in worlds that steps reached and in others, the first with every kind of letter.
pub const SETTLE_COVER: &[(&str, usize)] = &[
    ("start and kind, done after a letter of a dead sender", 3 * STARTS.len()),
    ("start, stopped before letters of dead senders alone", STARTS.len()),
    ("start, done with letters left to a process that is down", STARTS.len()),
];
pub const REPLAY_ANSWERS: &[(&str, &[u32])] = &[("replay", &[0, 1, 3, 13, 14, 15])];

const STARTS: [Start; 2] = [Start::Fresh, Start::Sound];

/// A world and all calls on it that need no list of steps.
pub fn input(index: u64, random: &mut Random, tally: &mut Tally) -> Result<(), Difference> {
    let turn = index / 5;
    match index % 5 {
        0 => setups(random, tally),
        1 => lengths(random, tally),
        2 => {
            let world = inputs::world(random, &STARTS);
            tally.input("world, sound");
            all_calls(&encode(&world), random, tally)
        }
        3 => one_order_changed(turn, random, tally),
        _ => one_word_changed(turn, random, tally),
    }
}

/// Makes a world from a setup, valid or not, over any words.
fn setups(random: &mut Random, tally: &mut Tally) -> Result<(), Difference> {
    tally.input("world, made from a setup");
    let length = inputs::length(random, 16);
    let words = Lent::room(random, length);
    let setup = inputs::setup(random);
    calls::make(&words, &setup, random, tally)
}

/// A sound world, cut or made longer.
fn lengths(random: &mut Random, tally: &mut Tally) -> Result<(), Difference> {
    tally.input("world, length");
    let mut words = encode(&inputs::world(random, &STARTS));
    words.resize(inputs::length(random, 2), 0);
    all_calls(&words, random, tally)
}

/// A sound world with one word changed: words in turn, so that every word has been changed after some inputs.
fn one_word_changed(turn: u64, random: &mut Random, tally: &mut Tally) -> Result<(), Difference> {
    let world = inputs::world(random, &STARTS);
    let words = encode(&world);
    for i in 0..CHANGED {
        tally.input("world, one word changed");
        let at = (turn as usize * CHANGED + i) % WORDS;
        tally.cover("word changed", at);
        let mut changed = words.clone();
        changed[at] = inputs::other_word(random, words[at]);
        all_calls(&changed, random, tally)?;
    }
    Ok(())
}

/// A sound world with one order number changed: messages in turn. It stays sound if there is such a message.
fn one_order_changed(turn: u64, random: &mut Random, tally: &mut Tally) -> Result<(), Difference> {
    let world = inputs::world(random, &STARTS);
    let words = encode(&world);
    for i in 0..ORDERS {
        let message = (turn as usize * ORDERS + i) % MESSAGES;
        let (kind, items) = if message < world.messages.len() {
            ("world, order number changed", "order word of a message changed")
        } else {
            ("world, order number of an absent message", "order word of an absent message changed")
        };
        tally.input(kind);
        tally.cover(items, message);
        let mut changed = words.clone();
        let at = order_place(message);
        changed[at] = inputs::other_word(random, words[at]);
        calls::order(&Lent::holding(random, &changed), message as u32, tally)?;
        all_calls(&changed, random, tally)?;
    }
    Ok(())
}

/// A log, an order number, what is awaited and what came first, and now and then a step, its preview and both settles.
fn all_calls(words: &[u16], random: &mut Random, tally: &mut Tally) -> Result<(), Difference> {
    let words = Lent::holding(random, words);
    let process = random.below(18) as u32;
    calls::log(&words, process, random.one_in(2), tally)?;
    calls::order(&words, inputs::message(random, words.part()), tally)?;
    let message = inputs::message(random, words.part());
    calls::awaited(&words, process, message, random, tally)?;
    let asked = inputs::asked(random, words.part());
    calls::precedes(&words, &asked, random, tally)?;
    if random.one_in(4) {
        let step = inputs::any_step(random);
        calls::step(&words, &step, random, tally)?;
        let second = inputs::second_slice(random, words.part(), 16);
        calls::preview(&words, &step, &second, random, tally)?;
        let budget = random.below(20) as u32;
        calls::settle(&LOWEST, &words, budget, tally)?;
        calls::settle(&FAIR, &words, budget, tally)?;
    }
    Ok(())
}

/// The kinds of lists of steps, taken in turn.
const LISTS: [(&str, Weights, Start); 6] = [
    ("steps, calm", CALM, Start::Fresh),
    ("steps, race", RACE, Start::Fresh),
    ("steps, storm", STORM, Start::Fresh),
    ("steps, flood", FLOOD, Start::Fresh),
    ("steps, wrong", WRONG, Start::Fresh),
    ("steps, of a sound world", STORM, Start::Sound),
];

/// A list of steps from a world: the answer and all words after each step, and the order numbers at the end.
pub fn steps(index: u64, random: &mut Random, tally: &mut Tally) -> Result<(), Difference> {
    let (kind, weights, start) = LISTS[(index % 6) as usize];
    tally.input(kind);
    let mut world = inputs::start(random, start);
    let mut words = Lent::holding(random, &encode(&world));
    for _ in 0..STEPS {
        let step = sample::step(random, &world, &weights);
        calls::step_on(&mut world, &mut words, &step, tally)?;
    }
    calls::orders(&world, &words, tally)
}

/// A list of steps from a world, some of which are previewed before they are taken: on the words of the world, or on
/// some that are no world's. Trust steps, which can deliver most, are all among these.
pub fn previews(index: u64, random: &mut Random, tally: &mut Tally) -> Result<(), Difference> {
    let (kind, weights, start) = LISTS[(index % 6) as usize];
    tally.input(kind);
    let mut world = inputs::start(random, start);
    for _ in 0..STEPS {
        let step = sample::step(random, &world, &weights);
        if step.first() == Some(&4) || random.one_in(8) {
            let words = inputs::words(random, &world, 16);
            let second = inputs::second_slice(random, &words, 16);
            calls::preview(&Lent::holding(random, &words), &step, &second, random, tally)?;
        }
        let _ = world.step(&step);
    }
    Ok(())
}

/// A settle of a world with a budget about what it needs.
pub fn settles(index: u64, random: &mut Random, tally: &mut Tally) -> Result<(), Difference> {
    let start = index as usize % STARTS.len();
    let world = inputs::to_settle(random, STARTS[start]);
    let needed = world.clone().settle(u32::MAX).arrivals;
    let (kind, budget) = inputs::budget(random, needed);
    tally.input(kind);
    calls::settle(&LOWEST, &Lent::holding(random, &encode(&world)), budget, tally)?;
    let mut after = world.clone();
    let settled = after.settle(budget);
    note_settle(&world, settled, &after, start, tally);
    Ok(())
}

/// Notes a settle by the letters with one end down: those that it moves, those before which it stops, those that it
/// leaves.
fn note_settle(world: &World, settled: Settled, after: &World, start: usize, tally: &mut Tally) {
    let done = settled.done;
    let up = |process: usize| world.processes[process].up;
    let of_dead = |letter: &Letter| !up(letter.from) && up(letter.to);
    if done && world.flight.iter().any(of_dead) {
        tally.answer("settle, done after a letter of a dead sender", 0);
        for letter in world.flight.iter().filter(|letter| of_dead(letter)) {
            tally.cover(
                "start and kind, done after a letter of a dead sender",
                3 * start + letter.kind as usize,
            );
        }
    }
    if !done && after.flight.iter().all(|letter| of_dead(letter) || !up(letter.to)) {
        tally.answer("settle, stopped before letters of dead senders alone", 0);
        tally.cover("start, stopped before letters of dead senders alone", start);
    }
    if done && !after.flight.is_empty() {
        tally.answer("settle, done with letters left to a process that is down", 0);
        tally.cover("start, done with letters left to a process that is down", start);
    }
}

/// A journal with its kind.
pub fn journal(index: u64, random: &mut Random) -> (&'static str, Vec<u8>) {
    match index % 8 {
        0 => ("replay, damaged journal", crate::journal::damaged(random)),
        1 => ("replay, damaged journal of steps", inputs::damaged_journal(random)),
        2 => ("replay, any setup", inputs::journal(random, true)),
        _ => ("replay, valid", inputs::journal(random, false)),
    }
}

/// A journal to replay over any words.
pub fn replays(index: u64, random: &mut Random, tally: &mut Tally) -> Result<(), Difference> {
    let (kind, journal) = journal(index, random);
    tally.input(kind);
    let length = inputs::length(random, 32);
    let words = Lent::room(random, length);
    calls::replay(&words, &journal, random, tally)
}

/// The world of a setup that is valid.
fn fresh(setup: &[u8]) -> World {
    World::fresh(setup).expect("a valid setup")
}
