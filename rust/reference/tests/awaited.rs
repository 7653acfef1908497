//! Document 02, card 5: whose message is awaited.

mod support;

use reference::awaited::Awaited;
use reference::calls;
use reference::random::Random;
use reference::record::{crash, multicast};
use reference::sample::{self, CALM, FLOOD, RACE, STORM, WRONG};
use reference::words::{encode, WORDS};
use reference::world::{World, MESSAGES};
use reference::Refusal;
use support::history::{History, Precedence};
use support::{arrival, fresh, logs, take};

/// Known run 3, until message 2 is in the FIFO log of process 2, where message 0 has not arrived.
fn overtaken() -> World {
    let mut world = fresh(&[0, 1, 2]);
    take(&mut world, &[multicast(0, 4), multicast(0, 2), arrival(0, 1, 0, 1), arrival(2, 1, 1, 1)]);
    take(&mut world, &[multicast(1, 4), arrival(0, 2, 1, 2), arrival(2, 2, 2, 2)]);
    world
}

fn call(world: &World, process: usize, message: usize) -> Result<Awaited, Refusal> {
    calls::awaited(&encode(world), process, message)
}

#[test]
fn in_known_run_3_the_call_awaits_the_recipe() {
    let mut world = overtaken();
    assert_eq!(call(&world, 2, 2), Ok(Awaited::Message { of: 0, message: 0 }));
    take(&mut world, &[arrival(0, 0, 0, 2)]);
    assert_eq!(call(&world, 2, 2), Ok(Awaited::Message { of: 0, message: 0 }), "held, not delivered");
    take(&mut world, &[arrival(2, 0, 2, 2)]);
    assert_eq!(logs(&world, 2), (&[2, 0][..], &[0, 2][..]));
    assert_eq!(call(&world, 2, 2), Err(Refusal::NotWaiting));
}

#[test]
fn a_process_that_is_down_is_asked_like_any_other() {
    let mut world = overtaken();
    take(&mut world, &[crash(0), crash(2)]);
    assert_eq!(call(&world, 2, 2), Ok(Awaited::Message { of: 0, message: 0 }));
    assert_eq!(call(&world, 2, 0), Err(Refusal::NotWaiting));
}

/// Message 4 waits for 2, the next of process 0, which waits for 0, of process 3.
#[test]
fn what_is_awaited_may_wait_too() {
    let mut world = fresh(&[0, 1, 2, 3]);
    take(&mut world, &[multicast(3, 4), multicast(3, 1), arrival(0, 1, 3, 0), arrival(2, 1, 0, 0)]);
    take(&mut world, &[multicast(0, 4), multicast(0, 2), arrival(0, 3, 0, 1), arrival(2, 3, 1, 1)]);
    take(&mut world, &[multicast(1, 4), arrival(0, 4, 1, 2), arrival(2, 4, 2, 2)]);
    assert_eq!(call(&world, 2, 4), Ok(Awaited::Message { of: 0, message: 2 }));
    assert_eq!(call(&world, 2, 2), Err(Refusal::NotWaiting));
    take(&mut world, &[arrival(0, 2, 0, 2), arrival(2, 2, 2, 2)]);
    assert_eq!(logs(&world, 2), (&[4, 2][..], &[][..]));
    assert_eq!(call(&world, 2, 4), Ok(Awaited::Message { of: 0, message: 2 }));
    assert_eq!(call(&world, 2, 2), Ok(Awaited::Message { of: 3, message: 0 }));
}

#[test]
fn the_call_refuses_1_2_5_7_and_18_the_lowest_first() {
    let mut words = encode(&overtaken());
    let absent = [3, 63, 64, 255, u32::MAX as usize];
    for number in absent {
        for message in [0, 2].into_iter().chain(absent) {
            assert_eq!(calls::awaited(&words, number, message), Err(Refusal::NoProcess), "process {number}");
        }
        for process in 0..3 {
            assert_eq!(calls::awaited(&words, process, number), Err(Refusal::NoMessage), "message {number}");
        }
    }
    assert_eq!(
        calls::awaited(&words, 2, 0),
        Err(Refusal::NotWaiting),
        "not in the FIFO log, though to its group"
    );
    assert_eq!(calls::awaited(&words, 2, 1), Err(Refusal::NotWaiting), "not to its group");
    assert_eq!(calls::awaited(&words, 1, 1), Err(Refusal::NotWaiting), "in both logs");
    assert_eq!(Refusal::NotWaiting.number(), 18);
    words[0] = 17;
    for (process, message) in [(2, 2), (2, 0), (2, 64), (16, 64)] {
        assert_eq!(calls::awaited(&words, process, message), Err(Refusal::NotSound));
    }
    for length in [0, WORDS - 1, WORDS + 1] {
        assert_eq!(calls::awaited(&vec![7; length], 16, 64), Err(Refusal::WorldLength));
    }
}

/// Messages 0 and 1 of process 0, 2 and 3 of process 1, 4 of process 2, all to both groups and with counters of 0.
/// Process 3, in group 1, has message 4 in its FIFO log, and has delivered nothing causally. No steps lead there.
fn made() -> World {
    let mut world = fresh(&[0, 0, 1, 1]);
    take(&mut world, &[multicast(0, 3), multicast(0, 3), multicast(1, 3), multicast(1, 3), multicast(2, 3)]);
    for message in &mut world.messages {
        message.counters = Default::default();
    }
    world.flight.clear();
    world.processes[3].fifo_log = vec![4];
    world.processes[3].next[2] = 2;
    world
}

/// That world with these counters for group 1, each of a message and a process, and this del of process 3: what
/// message 4 waits for there.
fn awaited(counters: &[(usize, usize, u16)], del: [u16; 4]) -> Awaited {
    let mut world = made();
    for &(message, q, counter) in counters {
        world.messages[message].counters[1][q] = counter;
    }
    world.processes[3].del[..4].copy_from_slice(&del);
    call(&world, 3, 4).unwrap()
}

#[test]
fn nothing_is_awaited_where_no_entry_but_the_senders_falls_short() {
    assert_eq!(awaited(&[], [0; 4]), Awaited::Nothing);
    assert_eq!(awaited(&[(4, 0, 1), (4, 1, 3), (4, 3, 2)], [1, 3, 0, 2]), Awaited::Nothing, "equal to del");
    assert_eq!(awaited(&[(4, 2, 5), (0, 0, 1)], [0; 4]), Awaited::Nothing, "the sender's own");
}

#[test]
fn the_lowest_process_is_named_with_its_next_message() {
    let counters = [(4, 0, 2), (4, 1, 2), (0, 0, 1), (1, 0, 2), (2, 1, 1), (3, 1, 2)];
    assert_eq!(awaited(&counters, [0; 4]), Awaited::Message { of: 0, message: 0 });
    assert_eq!(awaited(&counters, [1, 0, 0, 0]), Awaited::Message { of: 0, message: 1 });
    assert_eq!(awaited(&counters, [2, 0, 0, 0]), Awaited::Message { of: 1, message: 2 });
    assert_eq!(awaited(&counters, [2, 1, 0, 0]), Awaited::Message { of: 1, message: 3 });
    assert_eq!(awaited(&counters, [2, 2, 0, 0]), Awaited::Nothing);
}

#[test]
fn of_two_messages_that_fit_the_lowest_is_named() {
    assert_eq!(awaited(&[(4, 1, 1), (2, 1, 1), (3, 1, 1)], [0; 4]), Awaited::Message { of: 1, message: 2 });
}

#[test]
fn the_counter_is_exactly_one_more_than_del() {
    for (first, second, named) in
        [(1, 2, Some(1)), (3, 2, Some(1)), (2, 1, Some(0)), (1, 3, None), (0, 1, None)]
    {
        let expected =
            named.map_or(Awaited::Process { of: 0 }, |message| Awaited::Message { of: 0, message });
        let counters = [(4, 0, 5), (0, 0, first), (1, 0, second)];
        assert_eq!(awaited(&counters, [1, 0, 0, 0]), expected, "{first} and {second}");
    }
}

#[test]
fn the_message_is_of_that_process() {
    assert_eq!(awaited(&[(4, 0, 1), (2, 0, 1), (4, 2, 1)], [0; 4]), Awaited::Process { of: 0 });
}

#[test]
fn a_process_without_such_a_message_is_named_alone_though_another_has_one() {
    assert_eq!(awaited(&[(4, 0, 1), (4, 1, 1), (2, 1, 1)], [0; 4]), Awaited::Process { of: 0 });
    assert_eq!(awaited(&[(4, 3, 1)], [0; 4]), Awaited::Process { of: 3 }, "the process itself");
}

/// Message 0 would fit but is to group 0 alone, and message 1 fits.
#[test]
fn the_message_is_to_the_group_of_the_process() {
    let mut world = made();
    for (message, counter) in [(4, 1), (0, 1), (1, 1)] {
        world.messages[message].counters[1][0] = counter;
    }
    world.messages[0].groups[1] = false;
    assert_eq!(call(&world, 3, 4), Ok(Awaited::Message { of: 0, message: 1 }));
    world.messages[1].groups[1] = false;
    assert_eq!(call(&world, 3, 4), Ok(Awaited::Process { of: 0 }));
}

#[test]
fn counters_for_other_groups_play_no_part() {
    let mut world = made();
    for message in &mut world.messages {
        message.counters[0] = [5; 16];
        message.counters[0][4..].fill(0);
    }
    assert_eq!(call(&world, 3, 4), Ok(Awaited::Nothing));
}

/// All processes whose entry falls short, from the lowest on.
fn all_short(world: &World, p: usize, message: usize) -> Vec<usize> {
    let (process, message) = (&world.processes[p], &world.messages[message]);
    let entries = message.counters[process.group].iter().zip(&process.del).enumerate();
    let short = entries.filter(|&(q, (counter, del))| q != message.sender && counter > del);
    short.map(|(q, _)| q).collect()
}

/// All messages of q to the group of p whose counter is the next, from the lowest on.
fn all_next(world: &World, p: usize, q: usize) -> Vec<usize> {
    let process = &world.processes[p];
    let next = |x: &usize| world.messages[*x].counters[process.group][q] - process.del[q] == 1;
    let of_q = |x: &usize| world.messages[*x].sender == q && world.is_addressee(*x, p);
    let above = |x: &usize| world.messages[*x].counters[process.group][q] > process.del[q];
    (0..world.messages.len()).filter(of_q).filter(above).filter(next).collect()
}

/// Every message that waits: one in a FIFO log outside the causal log, with its process.
fn all_waiting(world: &World) -> Vec<(usize, usize)> {
    let of_process = |p: usize| {
        let (fifo, causal) = logs(world, p);
        fifo.iter().filter(move |m| !causal.contains(m)).map(move |&m| (p, m))
    };
    (0..world.processes.len()).flat_map(of_process).collect()
}

#[test]
fn the_answer_in_any_sound_world_is_the_lowest_of_all() {
    let mut seen = [0; 3];
    for run in 0..4_000 {
        let random = &mut Random::new(45, run);
        let world = sample::sound_world(random, if run % 4 == 0 { 16 } else { 4 });
        for (p, m) in all_waiting(&world) {
            let short = all_short(&world, p, m).first().copied();
            let next = short.and_then(|q| all_next(&world, p, q).first().copied());
            let (kind, expected) = match (short, next) {
                (None, _) => (0, Awaited::Nothing),
                (Some(of), Some(message)) => (1, Awaited::Message { of, message }),
                (Some(of), None) => (2, Awaited::Process { of }),
            };
            assert_eq!(world.awaited(p, m), Ok(expected), "run {run}, message {m} at process {p}");
            seen[kind] += 1;
        }
    }
    assert!(seen.iter().all(|&times| times > 1_000), "{seen:?}");
}

/// The message named for a waiting one: it precedes that one, is the only one that fits, is to the group of p and not
/// in its causal log.
fn named(world: &World, precedence: &Precedence, p: usize, waiting: usize) -> usize {
    let process = &world.processes[p];
    let (of, message) = match world.awaited(p, waiting) {
        Ok(Awaited::Message { of, message }) => (of, message),
        other => panic!("message {waiting} at process {p}: {other:?}"),
    };
    assert!(precedence.precedes(message, waiting), "{message} and {waiting} at process {p}");
    assert!(message < waiting && world.is_addressee(message, p));
    assert!(!process.causal_log.contains(&message), "message {message} at process {p}");
    assert_eq!(all_next(world, p, of), [message], "message {waiting} at process {p}");
    message
}

/// Follows the answers from a waiting message to one that is not in the FIFO log: how many are named.
fn follow(world: &World, precedence: &Precedence, p: usize, waiting: usize) -> usize {
    let mut message = waiting;
    for links in 0..=MESSAGES {
        if !world.processes[p].fifo_log.contains(&message) {
            return links;
        }
        message = named(world, precedence, p, message);
    }
    panic!("message {waiting} at process {p}: no end");
}

#[test]
fn where_steps_led_a_message_that_precedes_is_named() {
    let (mut waiting, mut chains) = (0, 0);
    for run in 0..10_000 {
        let random = &mut Random::new(46, run);
        let most = if run % 8 == 0 { 16 } else { 6 };
        let mut world = World::fresh(&sample::setup(random, most)).unwrap();
        let mut history = History::of_fresh(&world);
        let weights = random.pick(&[CALM, RACE, RACE, RACE, STORM, FLOOD, WRONG]);
        for _ in 0..random.below(400) {
            let step = sample::step(random, &world, &weights);
            history.step(&mut world, &step);
        }
        let precedence = history.precedence();
        for (p, m) in all_waiting(&world) {
            waiting += 1;
            chains += usize::from(follow(&world, &precedence, p, m) > 1);
        }
    }
    assert!(waiting > 5_000 && chains > 100, "{waiting} messages wait, {chains} of them in chains");
}
