//! Document 01, "The world": when a lent world is sound, sentence by sentence.

use crate::words::{decode, encode, WORDS};
use crate::world::{Kind, Process, Table, World, PROCESSES};
use crate::Refusal;

/// The world of lent words. Refusals 1 and 2.
pub fn read(words: &[u16]) -> Result<World, Refusal> {
    if words.len() != WORDS {
        return Err(Refusal::WorldLength);
    }
    // n, groups below 8, count and the lengths of logs have room, or there is nothing to read.
    match decode(words) {
        Some(world) if is_sound(&world) && unused_words_are_zero(&world, words) => Ok(world),
        _ => Err(Refusal::NotSound),
    }
}

/// Writing back what was read gives the same words: those that nothing was read from are zero, and flags are 0 or 1.
fn unused_words_are_zero(world: &World, words: &[u16]) -> bool {
    encode(world) == words
}

/// Any order number of a message is sound (document 02, card 1).
fn is_sound(world: &World) -> bool {
    groups_have_no_gap(world)
        && messages_have_senders_and_groups(world)
        && numbers_are_at_most_count(world)
        && letters_go_from_origins_to_addressees(world)
        && world.processes.iter().enumerate().all(|(p, process)| {
            trust_names_existing(world, process)
                && held_and_marks_are_of_addressees(world, p)
                && logs_are_lists_of_own_messages(world, p)
                && next_follows_the_fifo_log(world, process)
        })
}

/// "numbered from 0 without a gap"
fn groups_have_no_gap(world: &World) -> bool {
    (0..world.groups()).all(|group| world.processes.iter().any(|process| process.group == group))
}

/// "every message has an existing sender and a non-empty mask of existing groups"
fn messages_have_senders_and_groups(world: &World) -> bool {
    world.messages.iter().all(|message| {
        let absent = &message.groups[world.groups()..];
        message.sender < world.processes.len() && message.groups.contains(&true) && !absent.contains(&true)
    })
}

/// "all counters, s, b and del are at most count"
fn numbers_are_at_most_count(world: &World) -> bool {
    let fits = |number: &u16| usize::from(*number) <= world.messages.len();
    let table_fits = |table: &Table| table.iter().flatten().all(fits);
    let of_process = |process: &Process| {
        table_fits(&process.counters)
            && process.sequence_counts.iter().all(fits)
            && process.del.iter().all(fits)
    };
    world.processes.iter().all(of_process)
        && world
            .messages
            .iter()
            .all(|message| table_fits(&message.counters) && message.sequence_numbers.iter().all(fits))
}

/// "trust sets name existing processes"
fn trust_names_existing(world: &World, process: &Process) -> bool {
    !process.trust[world.processes.len()..].contains(&true)
}

/// The process exists and is an addressee of the message.
fn is_addressee(world: &World, message: usize, process: usize) -> bool {
    process < world.processes.len() && world.is_addressee(message, process)
}

/// "letters .. concern only the origins and addressees named above": a first letter comes from the sender, the others
/// from addressees.
fn letters_go_from_origins_to_addressees(world: &World) -> bool {
    world.flight.iter().all(|letter| {
        let from_origin = match letter.kind {
            Kind::First => letter.from == world.messages[letter.message].sender,
            Kind::Relay | Kind::Ok => is_addressee(world, letter.message, letter.from),
        };
        from_origin && is_addressee(world, letter.message, letter.to)
    })
}

/// "held flags and marks concern only the origins and addressees named above": an addressee holds and marks, and the
/// origins of OKs are addressees.
fn held_and_marks_are_of_addressees(world: &World, p: usize) -> bool {
    let process = &world.processes[p];
    (0..world.messages.len()).all(|m| {
        let marked = |q: usize| process.marks[m][q];
        let nothing = !process.held[m] && !(0..PROCESSES).any(marked);
        nothing
            || is_addressee(world, m, p) && (0..PROCESSES).all(|q| !marked(q) || is_addressee(world, m, q))
    })
}

/// "each log lists distinct messages addressed to its process, the causal one only members of the FIFO one"
fn logs_are_lists_of_own_messages(world: &World, p: usize) -> bool {
    let process = &world.processes[p];
    let addressed = |m: &usize| *m < world.messages.len() && world.is_addressee(*m, p);
    let lists = |log: &[usize]| {
        let distinct = (1..log.len()).all(|i| !log[..i].contains(&log[i]));
        distinct && log.iter().all(addressed)
    };
    lists(&process.fifo_log)
        && lists(&process.causal_log)
        && process.causal_log.iter().all(|m| process.fifo_log.contains(m))
}

/// "next[q], for q below n, is 1 plus the number of q's messages in that FIFO log"
fn next_follows_the_fifo_log(world: &World, process: &Process) -> bool {
    (0..world.processes.len()).all(|q| {
        let of_q = process.fifo_log.iter().filter(|&&m| world.messages[m].sender == q).count();
        usize::from(process.next[q]) == 1 + of_q
    })
}
