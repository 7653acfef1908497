//! Each call on both sides: the answers are the same, and all lent words too, as they were on a refusal.

use super::inputs::{Asked, SecondSlice, SLICE_LENGTHS};
use crate::difference::{same, Difference};
use crate::lent::Lent;
use crate::tally::{number, Tally};
use engine::world as archive;
use engine::{raw, Settled};
use reference::awaited::Awaited;
use reference::calls::{self as second, Previewed};
use reference::random::Random;
use reference::words::{encode, WORDS};
use reference::world::World;
use reference::Refusal;

pub type Compared = Result<(), Difference>;

pub fn make(words: &Lent<u16>, setup: &[u8], random: &mut Random, tally: &mut Tally) -> Compared {
    let setup = Lent::holding(random, setup);
    let lent = setup.clone();
    let (mut made, mut expected) = (words.clone(), words.clone());
    let answer = archive::make(made.part_mut(), lent.part()).map_err(|refusal| refusal.number());
    let right = second::make(expected.part_mut(), setup.part());
    tally.answer("make", number(&right));
    same("make: answer", answer, right.map_err(Refusal::number))?;
    lent.same(&setup, "make: lent setup")?;
    made.same(&expected, "make: world")
}

pub fn log(words: &Lent<u16>, process: u32, causal: bool, tally: &mut Tally) -> Compared {
    let lent = words.clone();
    let (mut start, mut length) = (7_777, 8_888);
    let answer = raw::world_log(lent.part(), process, causal, &mut start, &mut length);
    let right = second::log(words.part(), process as usize, causal);
    tally.answer("log", number(&right));
    same("log: answer", answer, number(&right))?;
    lent.same(words, "log: world")?;
    match right {
        Err(_) => same("log: lent numbers", (start, length), (7_777, 8_888)),
        Ok(log) => {
            let part = lent.part().get(start as usize..start as usize + length as usize);
            same("log: items", part, Some(log))?;
            let wrapped = archive::log(lent.part(), process, causal).map_err(|refusal| refusal.number());
            same("log: wrapper", wrapped, Ok(log))
        }
    }
}

/// The order number of a message, on lent words that need not be sound.
pub fn order(words: &Lent<u16>, message: u32, tally: &mut Tally) -> Compared {
    let lent = words.clone();
    let right = second::order(words.part(), message as usize);
    same_order(&lent, message, right, tally)?;
    lent.same(words, "order: world")
}

/// The order number of every message of a world, and the refusal of the next and of others beyond.
pub fn orders(world: &World, words: &Lent<u16>, tally: &mut Tally) -> Compared {
    for message in (0..=world.messages.len() as u32).chain([64, 255, u32::MAX]) {
        let kept = world.messages.get(message as usize);
        same_order(words, message, kept.map(|kept| kept.order).ok_or(Refusal::NoMessage), tally)?;
    }
    Ok(())
}

/// The archive gives this number, or this refusal and leaves the lent number as it was.
fn same_order(words: &Lent<u16>, message: u32, right: Result<u16, Refusal>, tally: &mut Tally) -> Compared {
    let before = 0xA5A5_5A5A;
    let mut given = before;
    let answer = raw::order(words.part(), message, &mut given);
    let call = match right {
        Ok(0) => "order, none",
        Ok(_) => "order, a number",
        Err(_) => "order",
    };
    tally.answer(call, number(&right));
    same("order: answer", answer, number(&right))?;
    same("order: lent number", given, right.map_or(before, u32::from))?;
    let wrapped = archive::order(words.part(), message).map_err(|refusal| refusal.number());
    same("order: wrapper", wrapped, right.map_err(Refusal::number))
}

/// Whose message is awaited, on lent words that need not be sound.
pub fn awaited(
    words: &Lent<u16>,
    process: u32,
    message: u32,
    random: &mut Random,
    tally: &mut Tally,
) -> Compared {
    let right = second::awaited(words.part(), process as usize, message as usize);
    same_awaited(words, process, message, right, random, tally)
}

/// The archive gives this answer, or this refusal. The words stay as they were, and so do the lent numbers that the
/// answer does not have.
pub fn same_awaited(
    words: &Lent<u16>,
    process: u32,
    message: u32,
    right: Result<Awaited, Refusal>,
    random: &mut Random,
    tally: &mut Tally,
) -> Compared {
    let lent = words.clone();
    let before = [random.next(), random.next(), random.next()].map(|number| number as u32);
    let [mut kind, mut of, mut awaited] = before;
    let answer = raw::awaited(lent.part(), process, message, &mut kind, &mut of, &mut awaited);
    let (call, numbers) = match right {
        Ok(Awaited::Nothing) => ("awaited, nothing", [0, before[1], before[2]]),
        Ok(Awaited::Message { of, message }) => ("awaited, a message", [1, of as u32, message as u32]),
        Ok(Awaited::Process { of }) => ("awaited, a process alone", [2, of as u32, before[2]]),
        Err(_) => ("awaited", before),
    };
    tally.answer(call, number(&right));
    same("awaited: answer", answer, number(&right))?;
    same("awaited: lent numbers", [kind, of, awaited], numbers)?;
    lent.same(words, "awaited: world")?;
    let wrapped = archive::awaited(lent.part(), process, message).map(of_wrapper);
    same("awaited: wrapper", wrapped.map_err(|refusal| refusal.number()), right.map_err(Refusal::number))
}

/// The wrapper's answer as the second implementation has it.
fn of_wrapper(answer: archive::Awaited) -> Awaited {
    match answer {
        archive::Awaited::Nothing => Awaited::Nothing,
        archive::Awaited::Message { of, message } => {
            Awaited::Message { of: of.into(), message: message.into() }
        }
        archive::Awaited::Process { of } => Awaited::Process { of: of.into() },
    }
}

/// Which came first, for pairs of messages, on lent words that need not be sound.
pub fn precedes(words: &Lent<u16>, asked: &Asked, random: &mut Random, tally: &mut Tally) -> Compared {
    let mut expected = asked.answers.clone();
    let right = second::precedes(words.part(), asked.pairs.part(), expected.part_mut());
    same_precedes(words, asked, right, &expected, random, tally)
}

/// The archive gives this number, or this refusal and leaves the lent number as it was. The answers are then these, and
/// the words and the pairs stay as they were.
pub fn same_precedes(
    words: &Lent<u16>,
    asked: &Asked,
    right: Result<u32, Refusal>,
    expected: &Lent<u8>,
    random: &mut Random,
    tally: &mut Tally,
) -> Compared {
    let (lent, pairs, mut answers) = (words.clone(), asked.pairs.clone(), asked.answers.clone());
    let before = random.next() as u32;
    let mut different = before;
    let answer = raw::precedes(lent.part(), pairs.part(), answers.part_mut(), &mut different);
    tally.answer("precedes", number(&right));
    same("precedes: answer", answer, number(&right))?;
    same("precedes: lent number", different, right.unwrap_or(before))?;
    answers.same(expected, "precedes: answers")?;
    lent.same(words, "precedes: world")?;
    pairs.same(&asked.pairs, "precedes: pairs")?;
    let mut wrapped = asked.answers.clone();
    let different = archive::precedes(lent.part(), pairs.part(), wrapped.part_mut());
    let different = different.map_err(|refusal| refusal.number());
    same("precedes: wrapper", different, right.map_err(Refusal::number))?;
    wrapped.same(expected, "precedes: answers of the wrapper")
}

/// A step on lent words that need not be sound.
pub fn step(words: &Lent<u16>, step: &[u8], random: &mut Random, tally: &mut Tally) -> Compared {
    let step = Lent::holding(random, step);
    let lent = step.clone();
    let (mut stepped, mut expected) = (words.clone(), words.clone());
    let answer = archive::step(stepped.part_mut(), lent.part()).map_err(|refusal| refusal.number());
    let right = second::step(expected.part_mut(), step.part());
    tally.answer("step", number(&right));
    same("step: answer", answer, right.map_err(Refusal::number))?;
    lent.same(&step, "step: lent step")?;
    stepped.same(&expected, "step: world")
}

/// A step in a list of steps: the words go on with the world.
pub fn step_on(world: &mut World, words: &mut Lent<u16>, step: &[u8], tally: &mut Tally) -> Compared {
    let mut expected = words.clone();
    let next = world.messages.len();
    let answer = archive::step(words.part_mut(), step).map_err(|refusal| refusal.number());
    let right = world.step(step);
    tally.answer("step", number(&right));
    if world.messages.get(next).map_or(false, |message| message.order != 0) {
        tally.cover("order number multicast", next);
    }
    same("step: answer", answer, right.map_err(Refusal::number))?;
    expected.part_mut().copy_from_slice(&encode(world));
    words.same(&expected, "step: world")
}

/// A preview on lent words that need not be sound, into a second slice of any length and content.
pub fn preview(
    words: &Lent<u16>,
    step: &[u8],
    slice: &SecondSlice,
    random: &mut Random,
    tally: &mut Tally,
) -> Compared {
    let step = Lent::holding(random, step);
    let (lent, lent_step) = (words.clone(), step.clone());
    let (mut shown, mut expected) = (slice.words.clone(), slice.words.clone());
    let (mut fifo, mut causal) = (7_777, 8_888);
    let answer = raw::preview(lent.part(), lent_step.part(), shown.part_mut(), &mut fifo, &mut causal);
    let right = second::preview(words.part(), step.part(), expected.part_mut());
    same("preview: answer", answer, number(&right))?;
    let numbers = right.map_or((7_777, 8_888), |right| (right.fifo, right.causal));
    same("preview: lent numbers", (fifo, causal), numbers)?;
    lent.same(words, "preview: world")?;
    lent_step.same(&step, "preview: lent step")?;
    shown.same(&expected, "preview: second slice")?;
    let mut wrapped = slice.words.clone();
    let numbers = archive::preview(lent.part(), lent_step.part(), wrapped.part_mut());
    let numbers = numbers.map(|adds| (adds.fifo, adds.causal)).map_err(|refusal| refusal.number());
    same("preview: wrapper", numbers, right.map(|adds| (adds.fifo, adds.causal)).map_err(Refusal::number))?;
    wrapped.same(&expected, "preview: second slice of the wrapper")?;
    let alone = as_step(words, step.part(), &shown, answer)?;
    note_preview(right, alone, slice, tally);
    Ok(())
}

/// What the archive's step answers on a copy of the words. The preview answered the same where the length of its second
/// slice is right, and if it was taken, the slice has the words that the step left.
fn as_step(words: &Lent<u16>, step: &[u8], shown: &Lent<u16>, answer: u32) -> Result<u32, Difference> {
    let mut copy = words.clone();
    let alone = archive::step(copy.part_mut(), step).map_or_else(|refusal| refusal.number(), |()| 0);
    if shown.part().len() == WORDS {
        same("preview: answer of the step", answer, alone)?;
    }
    if answer == 0 {
        let mut stepped = shown.clone();
        stepped.part_mut().copy_from_slice(copy.part());
        shown.same(&stepped, "preview: words of the step")?;
    }
    Ok(alone)
}

/// Notes a preview by what the step adds, or by its refusal; of refusal 1, which length is wrong.
fn note_preview(right: Result<Previewed, Refusal>, alone: u32, slice: &SecondSlice, tally: &mut Tally) {
    let length = slice.words.part().len();
    let call = match right {
        Ok(Previewed { fifo: 0, causal: 0 }) => "preview, none added",
        Ok(Previewed { causal: 0, .. }) => "preview, FIFO alone",
        Ok(Previewed { fifo, causal }) if fifo == causal => "preview, as many causal",
        Ok(Previewed { fifo, causal }) if fifo < causal => "preview, more causal",
        Ok(_) => "preview, fewer causal",
        Err(Refusal::WorldLength) if length == WORDS => "preview, length of the world",
        Err(Refusal::WorldLength) => "preview, length of the second slice",
        Err(_) => "preview",
    };
    tally.answer(call, number(&right));
    match right {
        Ok(_) => tally.cover("second slice where the step is taken", slice.kind),
        Err(Refusal::NotSound) => tally.cover("second slice where the world is not sound", slice.kind),
        _ => {}
    }
    if length != WORDS {
        tally.cover("answer of the step where the second slice has a wrong length", alone as usize);
    }
    if let Some(at) = SLICE_LENGTHS.iter().position(|&wrong| wrong == length) {
        tally.cover("wrong length of the second slice", at);
    }
}

/// One of the two settles on both sides, and what its answers are called: done, stopped, a refusal.
pub struct Settle {
    raw: fn(&mut [u16], u32, &mut u32, &mut u32) -> u32,
    wrapper: fn(&mut [u16], u32) -> Result<Settled, engine::Refusal>,
    second: fn(&mut [u16], u32) -> Result<reference::settle::Settled, Refusal>,
    names: [&'static str; 3],
}

/// The settle that takes the lowest letter first.
pub const LOWEST: Settle = Settle {
    raw: raw::settle,
    wrapper: archive::settle,
    second: second::settle,
    names: ["settle, done", "settle, stopped", "settle"],
};

/// The settle that serves processes in turn.
pub const FAIR: Settle = Settle {
    raw: raw::settle_fair,
    wrapper: archive::settle_fair,
    second: second::settle_fair,
    names: ["fair settle, done", "fair settle, stopped", "fair settle"],
};

/// A settle on lent words that need not be sound.
pub fn settle(settle: &Settle, words: &Lent<u16>, budget: u32, tally: &mut Tally) -> Compared {
    let [done_name, stopped_name, name] = settle.names;
    let (mut settled, mut expected) = (words.clone(), words.clone());
    let (mut arrivals, mut done) = (7_777, 8_888);
    let answer = (settle.raw)(settled.part_mut(), budget, &mut arrivals, &mut done);
    let right = (settle.second)(expected.part_mut(), budget);
    let call = match right {
        Ok(right) if right.done => done_name,
        Ok(_) => stopped_name,
        Err(_) => name,
    };
    tally.answer(call, number(&right));
    same(&format!("{name}: answer"), answer, number(&right))?;
    let numbers = right.map_or((7_777, 8_888), |right| (right.arrivals, u32::from(right.done)));
    same(&format!("{name}: lent numbers"), (arrivals, done), numbers)?;
    settled.same(&expected, &format!("{name}: world"))?;
    let mut wrapped = words.clone();
    let numbers = (settle.wrapper)(wrapped.part_mut(), budget);
    let numbers = numbers.map(|settled| (settled.arrivals, settled.done)).map_err(|refusal| refusal.number());
    let right = right.map(|settled| (settled.arrivals, settled.done)).map_err(Refusal::number);
    same(&format!("{name}: wrapper"), numbers, right)?;
    wrapped.same(&expected, &format!("{name}: world of the wrapper"))
}

pub fn replay(words: &Lent<u16>, journal: &[u8], random: &mut Random, tally: &mut Tally) -> Compared {
    let journal = Lent::holding(random, journal);
    let lent = journal.clone();
    let (mut replayed, mut expected) = (words.clone(), words.clone());
    let (mut steps, mut refused) = (7_777, 8_888);
    let answer = raw::replay(replayed.part_mut(), lent.part(), &mut steps, &mut refused);
    let right = second::replay(expected.part_mut(), journal.part());
    tally.answer("replay", number(&right));
    same("replay: answer", answer, number(&right))?;
    same("replay: lent numbers", (steps, refused), right.unwrap_or((7_777, 8_888)))?;
    lent.same(&journal, "replay: lent journal")?;
    replayed.same(&expected, "replay: world")
}
