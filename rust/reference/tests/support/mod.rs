//! What the tests share.

#![allow(dead_code)]

pub mod history;

use reference::journal;
use reference::record::{self, Record};
use reference::settle::Settled;
use reference::world::{Kind, Letter, World};
use reference::Refusal;
use std::fs;
use std::path::Path;

pub fn letter(kind: usize, message: usize, from: usize, to: usize) -> Letter {
    Letter { message, kind: [Kind::First, Kind::Relay, Kind::Ok][kind], from, to }
}

pub fn arrival(kind: usize, message: usize, from: usize, to: usize) -> Record {
    record::arrival(letter(kind, message, from, to))
}

pub fn loss(kind: usize, message: usize, from: usize, to: usize) -> Record {
    record::loss(letter(kind, message, from, to))
}

pub fn fresh(groups: &[usize]) -> World {
    World::fresh(&record::setup(groups)).unwrap()
}

/// Takes the steps, all of which are accepted.
pub fn take(world: &mut World, steps: &[Record]) {
    for step in steps {
        assert_eq!(world.step(step), Ok(()), "step {step:?}");
    }
}

/// The step is refused with this number, and changes nothing.
pub fn refused(world: &mut World, step: &[u8], refusal: Refusal) {
    let before = world.clone();
    assert_eq!(world.step(step), Err(refusal), "step {step:?}");
    assert_eq!(*world, before);
}

/// The FIFO and the causal log of a process.
pub fn logs(world: &World, process: usize) -> (&[usize], &[usize]) {
    let process = &world.processes[process];
    (&process.fifo_log, &process.causal_log)
}

/// A settle that may make so many arrivals says done.
pub const BUDGET: u32 = 33_792;

/// The settle that takes the lowest letter first, and the one that serves processes in turn.
pub type Settle = fn(&mut World, u32) -> Settled;
pub const SETTLES: [Settle; 2] = [World::settle, World::settle_fair];

/// Each settle, allowed the whole budget on a copy of the world: what it says, and what it leaves.
pub fn each_settle(world: &World, check: impl Fn(Settled, &World)) {
    for settle in SETTLES {
        let mut after = world.clone();
        let settled = settle(&mut after, BUDGET);
        check(settled, &after);
    }
}

/// Each message that a live process multicast or that any process FIFO-delivered is in the FIFO log of every live
/// addressee.
pub fn agreed(world: &World) -> bool {
    let in_fifo = |p: usize, m: usize| world.processes[p].fifo_log.contains(&m);
    let processes = 0..world.processes.len();
    (0..world.messages.len()).all(|m| {
        let multicast_by_live = world.processes[world.messages[m].sender].up;
        let owed = multicast_by_live || processes.clone().any(|p| in_fifo(p, m));
        let lacks = |q: usize| world.processes[q].up && world.is_addressee(m, q) && !in_fifo(q, m);
        !owed || !processes.clone().any(lacks)
    })
}

/// A + so many times A × A, over the messages so far.
pub fn sum(world: &World, times: u32) -> u32 {
    let count = |m: usize| (0..world.processes.len()).filter(|&q| world.is_addressee(m, q)).count() as u32;
    (0..world.messages.len()).map(|m| count(m) + times * count(m) * count(m)).sum()
}

/// The letters that the messages so far can cause.
pub fn letters(world: &World) -> u32 {
    sum(world, 2)
}

/// The records of a stored journal.
pub fn stored(name: &str) -> Vec<Record> {
    let path = Path::new(env!("CARGO_MANIFEST_DIR")).join(format!("../../tests/journals/{name}.journal"));
    let journal = fs::read(path).expect(name);
    let mut bytes = vec![0; 8 * journal::count(&journal).unwrap()];
    journal::read(&journal, &mut bytes).unwrap();
    bytes.chunks(8).map(|record| record.try_into().unwrap()).collect()
}

pub fn journal_of(records: &[Record]) -> Vec<u8> {
    let records = records.concat();
    let mut journal = vec![0; journal::length(records.len()).unwrap()];
    journal::write(&records, &mut journal).unwrap();
    journal
}
