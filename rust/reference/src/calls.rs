//! The calls on a lent world of 20,480 words. A refusal changes nothing that was lent.

use crate::awaited::Awaited;
use crate::replay;
use crate::settle::Settled;
use crate::sound;
use crate::words::{encode, log_place, WORDS};
use crate::world::{Process, World};
use crate::Refusal;

/// Makes the fresh world of a setup record. Refusals 1, 3.
pub fn make(words: &mut [u16], setup: &[u8]) -> Result<(), Refusal> {
    has_length(words)?;
    let world = World::fresh(setup)?;
    words.copy_from_slice(&encode(&world));
    Ok(())
}

/// Takes a step. Refusals 1, 2, 4 to 12.
pub fn step(words: &mut [u16], step: &[u8]) -> Result<(), Refusal> {
    let mut world = sound::read(words)?;
    world.step(step)?;
    words.copy_from_slice(&encode(&world));
    Ok(())
}

/// How many FIFO and how many causal deliveries a step adds, over all processes.
#[derive(Clone, Copy, Debug, PartialEq, Eq)]
pub struct Previewed {
    pub fifo: u32,
    pub causal: u32,
}

/// Document 02, card 2: does a step on a copy of the world, and puts the copy into the second slice. Refusals 1 of
/// either slice, 2 of the world, 4 to 12.
pub fn preview(words: &[u16], step: &[u8], second: &mut [u16]) -> Result<Previewed, Refusal> {
    has_length(words)?;
    has_length(second)?;
    let world = sound::read(words)?;
    let mut copy = world.clone();
    copy.step(step)?;
    second.copy_from_slice(&encode(&copy));
    Ok(Previewed {
        fifo: added(&world, &copy, |process| &process.fifo_log),
        causal: added(&world, &copy, |process| &process.causal_log),
    })
}

/// How many items the logs of all processes have behind those that they had before.
fn added(before: &World, after: &World, log: fn(&Process) -> &Vec<usize>) -> u32 {
    let pairs = before.processes.iter().zip(&after.processes);
    let new = pairs.map(|(old, new)| log(new).strip_prefix(&log(old)[..]).expect("a log goes on").len());
    new.sum::<usize>() as u32
}

/// Settles within a budget, the lowest letter first. Refusals 1, 2.
pub fn settle(words: &mut [u16], budget: u32) -> Result<Settled, Refusal> {
    settle_with(words, |world| world.settle(budget))
}

/// Document 02, card 7: settles within a budget, processes in turn. Refusals 1, 2.
pub fn settle_fair(words: &mut [u16], budget: u32) -> Result<Settled, Refusal> {
    settle_with(words, |world| world.settle_fair(budget))
}

fn settle_with(words: &mut [u16], settle: impl Fn(&mut World) -> Settled) -> Result<Settled, Refusal> {
    let mut world = sound::read(words)?;
    let settled = settle(&mut world);
    words.copy_from_slice(&encode(&world));
    Ok(settled)
}

/// The FIFO or the causal log of a process, as a part of the words. Refusals 1, 2, 5.
pub fn log(words: &[u16], process: usize, causal: bool) -> Result<&[u16], Refusal> {
    let world = sound::read(words)?;
    if process >= world.processes.len() {
        return Err(Refusal::NoProcess);
    }
    let (start, length) = log_place(process, causal);
    Ok(&words[start..start + usize::from(words[length])])
}

/// The order number of a message. Refusals 1, 2, 7.
pub fn order(words: &[u16], message: usize) -> Result<u16, Refusal> {
    let world = sound::read(words)?;
    world.messages.get(message).map(|message| message.order).ok_or(Refusal::NoMessage)
}

/// Document 02, card 5: whose message is awaited at a process by a message. Refusals 1, 2, 5, 7, 18.
pub fn awaited(words: &[u16], process: usize, message: usize) -> Result<Awaited, Refusal> {
    sound::read(words)?.awaited(process, message)
}

/// Document 02, card 6: for each pair of messages, whether the first precedes the second; the number of different
/// messages in the pairs. Refusals 1, 2, 19, 7, in this order.
pub fn precedes(words: &[u16], pairs: &[u16], answers: &mut [u8]) -> Result<u32, Refusal> {
    sound::read(words)?.precedes(pairs, answers)
}

/// Replays a journal: the number of records after the setup, and how many of these were refused. Refusals 1, 13,
/// block by block 14 and 15, then 3.
pub fn replay(words: &mut [u16], journal: &[u8]) -> Result<(u32, u32), Refusal> {
    has_length(words)?;
    let replayed = replay::replay(journal)?;
    words.copy_from_slice(&encode(&replayed.world));
    Ok((replayed.steps, replayed.refused))
}

fn has_length(words: &[u16]) -> Result<(), Refusal> {
    if words.len() == WORDS {
        Ok(())
    } else {
        Err(Refusal::WorldLength)
    }
}
