//! Whose message is awaited: in worlds that steps reached, where it always is a message, and in worlds that are only
//! sound, with counters about del, where a wrong answer can be told from the right one.

use super::calls::{self, Compared};
use super::inputs::{self, Start};
use crate::difference::Difference;
use crate::lent::Lent;
use crate::tally::Tally;
use reference::awaited::Awaited;
use reference::random::Random;
use reference::sample;
use reference::words::encode;
use reference::world::{World, GROUPS, MESSAGES, PROCESSES};
use reference::Refusal;

pub const ANSWERS: &[(&str, &[u32])] = &[
    ("awaited, nothing", &[0]),
    ("awaited, a message", &[0]),
    ("awaited, a process alone", &[0]),
    ("awaited", &[1, 2, 5, 7, 18]),
    ("awaited, not in the FIFO log", &[18]),
    ("awaited, already in the causal log", &[18]),
    ("awaited, where steps led", &[0]),
    ("awaited, at a process that is down", &[0]),
    ("awaited, the sender's own entry alone above del", &[0]),
    ("awaited, the sender's own entry above del, and a higher one", &[0]),
    ("awaited, a higher process has a message too", &[0]),
    ("awaited, a higher process has a message, the lowest none", &[0]),
    ("awaited, two messages fit", &[0]),
    ("awaited, a lower message to other groups would fit", &[0]),
    ("awaited, one to other groups alone would fit", &[0]),
    ("awaited, a lower message is further above del", &[0]),
    ("awaited, one further above del alone", &[0]),
    ("awaited, a lower message is at del", &[0]),
    ("awaited, one at del alone", &[0]),
];
pub const COVER: &[(&str, usize)] = &[
    ("process awaited", PROCESSES),
    ("process awaited alone", PROCESSES),
    ("message awaited", MESSAGES),
    ("process asked", PROCESSES),
    ("group of the process asked", GROUPS),
];

pub fn input(index: u64, random: &mut Random, tally: &mut Tally) -> Compared {
    let world = match index % 2 {
        0 => where_steps_led(random, tally)?,
        _ => with_counters_about_del(random, tally)?,
    };
    let words = inputs::words(random, &world, 4);
    let (process, message) = (random.below(18) as u32, inputs::message(random, &words));
    calls::awaited(&Lent::holding(random, &words), process, message, random, tally)
}

/// Every message that waits in a world that steps reached, and some other at each process.
fn where_steps_led(random: &mut Random, tally: &mut Tally) -> Result<World, Difference> {
    tally.input("awaited, where steps led");
    let world = inputs::world(random, &[Start::Fresh]);
    let words = Lent::holding(random, &encode(&world));
    for (p, process) in world.processes.iter().enumerate() {
        for &message in process.fifo_log.iter().filter(|message| !process.causal_log.contains(message)) {
            match ask(&world, &words, p, message, random, tally)? {
                Ok(Awaited::Message { .. }) => tally.answer("awaited, where steps led", 0),
                other => return Err(Difference(format!("both sides, where steps led: {other:?}"))),
            }
        }
        let message = inputs::message(random, words.part()) as usize;
        let _ = ask(&world, &words, p, message, random, tally)?;
    }
    Ok(world)
}

/// Every message that waits at one process and some others, and processes and messages that are absent.
fn with_counters_about_del(random: &mut Random, tally: &mut Tally) -> Result<World, Difference> {
    tally.input("awaited, counters about del");
    let (world, p) = about_del(random);
    let words = Lent::holding(random, &encode(&world));
    for message in 0..world.messages.len() {
        if world.awaited(p, message).is_err() && !random.one_in(8) {
            continue;
        }
        if let Ok(answer) = ask(&world, &words, p, message, random, tally)? {
            note(&world, p, message, answer, tally);
        }
    }
    let absent = [64, 255, u32::MAX as usize];
    for message in [world.messages.len()].into_iter().chain(absent) {
        let _ = ask(&world, &words, p, message, random, tally)?;
    }
    for process in [world.processes.len()].into_iter().chain(absent) {
        let message = inputs::message(random, words.part()) as usize;
        let _ = ask(&world, &words, process, message, random, tally)?;
    }
    Ok(world)
}

/// A sound world that no steps reach mostly, and a process of it: the counters of messages for its group are about del
/// there. One entry or so of each message is above it, and one in eight of the senders' own is the next.
fn about_del(random: &mut Random) -> (World, usize) {
    let n = if random.one_in(2) { PROCESSES } else { random.between(2, PROCESSES) };
    let setup = sample::setup_of(random, n);
    let count = if random.one_in(2) { MESSAGES } else { random.between(2, MESSAGES) };
    let mut world = sample::sound_world_of(random, &setup, count);
    let p = random.below(n);
    let highest = if random.one_in(2) { count } else { count.min(2) };
    let World { processes, messages, .. } = &mut world;
    let process = &mut processes[p];
    for (q, del) in process.del[..n].iter_mut().enumerate() {
        let at = random.between(0, highest);
        *del = at as u16;
        for message in messages.iter_mut() {
            let counter = if message.sender == q {
                (at + random.pick(&[0, 0, 0, 1, 1, 2, 3, 3])).saturating_sub(1)
            } else if random.one_in(n) {
                at + random.between(1, 2)
            } else {
                random.between(0, at)
            };
            message.counters[process.group][q] = counter.min(count) as u16;
        }
    }
    (world, p)
}

/// Asks both sides on the words of this world; the answer of the second one.
fn ask(
    world: &World,
    words: &Lent<u16>,
    p: usize,
    message: usize,
    random: &mut Random,
    tally: &mut Tally,
) -> Result<Result<Awaited, Refusal>, Difference> {
    let right = world.awaited(p, message);
    calls::same_awaited(words, p as u32, message as u32, right, random, tally)?;
    match right {
        Err(Refusal::NotWaiting) if world.processes[p].causal_log.contains(&message) => {
            tally.answer("awaited, already in the causal log", 18);
        }
        Err(Refusal::NotWaiting) => tally.answer("awaited, not in the FIFO log", 18),
        Err(_) => {}
        Ok(_) => {
            tally.cover("process asked", p);
            tally.cover("group of the process asked", world.processes[p].group);
            if !world.processes[p].up {
                tally.answer("awaited, at a process that is down", 0);
            }
        }
    }
    Ok(right)
}

/// The messages of q, to the group of p or not, whose counter for that group passes the test.
fn messages_of(world: &World, p: usize, q: usize, to_group: bool, test: impl Fn(u16) -> bool) -> Vec<usize> {
    let group = world.processes[p].group;
    let passes = |&x: &usize| {
        let message = &world.messages[x];
        message.sender == q && message.groups[group] == to_group && test(message.counters[group][q])
    };
    (0..world.messages.len()).filter(passes).collect()
}

/// The messages of q to the group of p that are the next by their counters.
fn fitting(world: &World, p: usize, q: usize) -> Vec<usize> {
    messages_of(world, p, q, true, |counter| counter == world.processes[p].del[q] + 1)
}

/// Notes what would tell a wrong answer from this one: among the entries of the waiting message, and among the messages
/// of the lowest process that falls short.
fn note(world: &World, p: usize, waiting: usize, answer: Awaited, tally: &mut Tally) {
    let (process, message) = (&world.processes[p], &world.messages[waiting]);
    let above = |q: &usize| message.counters[process.group][*q] > process.del[*q];
    let own = above(&message.sender);
    let short = (0..world.processes.len()).filter(above).filter(|&q| q != message.sender);
    let higher = short.skip(1).any(|q| !fitting(world, p, q).is_empty());
    let situation = match answer {
        Awaited::Nothing if own => "awaited, the sender's own entry alone above del",
        Awaited::Message { of, .. } if own && message.sender < of => {
            "awaited, the sender's own entry above del, and a higher one"
        }
        Awaited::Message { .. } if higher => "awaited, a higher process has a message too",
        Awaited::Process { .. } if higher => "awaited, a higher process has a message, the lowest none",
        _ => "awaited, other entries",
    };
    tally.answer(situation, 0);
    match answer {
        Awaited::Nothing => {}
        Awaited::Message { of, message } => {
            tally.cover("process awaited", of);
            tally.cover("message awaited", message);
            note_messages(world, p, of, Some(message), tally);
        }
        Awaited::Process { of } => {
            tally.cover("process awaited alone", of);
            note_messages(world, p, of, None, tally);
        }
    }
}

/// Notes which messages of q a wrong test would name: those lower than the one that is named, or any where none is.
fn note_messages(world: &World, p: usize, q: usize, named: Option<usize>, tally: &mut Tally) {
    let del = world.processes[p].del[q];
    let lower = |messages: Vec<usize>| messages.iter().any(|&message| message < named.unwrap_or(MESSAGES));
    let situations = [
        (
            lower(messages_of(world, p, q, false, |counter| counter == del + 1)),
            "awaited, a lower message to other groups would fit",
            "awaited, one to other groups alone would fit",
        ),
        (
            lower(messages_of(world, p, q, true, |counter| counter > del + 1)),
            "awaited, a lower message is further above del",
            "awaited, one further above del alone",
        ),
        (
            lower(messages_of(world, p, q, true, |counter| counter == del)),
            "awaited, a lower message is at del",
            "awaited, one at del alone",
        ),
    ];
    for (_, beside, alone) in situations.iter().filter(|(met, ..)| *met) {
        tally.answer(if named.is_some() { beside } else { alone }, 0);
    }
    if fitting(world, p, q).len() > 1 {
        tally.answer("awaited, two messages fit", 0);
    }
}
