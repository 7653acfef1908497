//! Card 7 of document 02: a settle that serves processes in turn.

mod support;

use reference::random::Random;
use reference::record::{self, crash, multicast};
use reference::sample::{self, CALM, FLOOD, RACE, STORM, WRONG};
use reference::settle::Settled;
use reference::sound;
use reference::words::encode;
use reference::world::{Letter, World};
use std::collections::BTreeSet;
use support::history::History;
use support::{arrival, fresh, letter, letters, logs, loss, take, BUDGET};

/// A choice of the next letter, as the settles have it.
type Choice = fn(&World, Option<usize>) -> Option<Letter>;

/// The letters in the order in which a settle with this choice takes them, and what it says and leaves.
fn arrivals(world: &World, budget: u32, choice: Choice) -> (Vec<Letter>, Settled, World) {
    let (mut after, mut chosen) = (world.clone(), Vec::new());
    let settled = after.settle_by(budget, |world, last| {
        let letter = choice(world, last);
        chosen.extend(letter);
        letter
    });
    chosen.truncate(settled.arrivals as usize);
    (chosen, settled, after)
}

/// Those of the settle in turn, which is held to what they do as steps.
fn in_turn(world: &World, budget: u32) -> (Vec<Letter>, Settled) {
    let (chosen, settled, after) = arrivals(world, budget, World::letter_in_turn);
    let (mut by_call, mut by_steps) = (world.clone(), world.clone());
    assert_eq!(by_call.settle_fair(budget), settled);
    for &letter in &chosen {
        take(&mut by_steps, &[record::arrival(letter)]);
    }
    assert!(by_call == after && by_steps == after);
    (chosen, settled)
}

fn receivers(letters: &[Letter]) -> Vec<usize> {
    letters.iter().map(|letter| letter.to).collect()
}

/// Process 0 sends eight messages to the mixers, 1 and 2, then one to the silo stores, 3 and 4.
fn stores_behind_mixers() -> World {
    let mut world = fresh(&[0, 1, 1, 2, 2]);
    for _ in 0..8 {
        take(&mut world, &[multicast(0, 0b010)]);
    }
    take(&mut world, &[multicast(0, 0b100)]);
    world
}

/// 48 arrivals of the mixers' messages, then six of the stores'; in turn, the stores have theirs after twelve in all.
#[test]
fn the_silo_stores_do_not_wait_behind_the_mixers() {
    let world = stores_behind_mixers();
    let delivers = |settle: support::Settle, budget: u32| {
        let mut world = world.clone();
        assert!(!settle(&mut world, budget).done);
        [3, 4].map(|store| logs(&world, store).1.len())
    };
    assert_eq!((delivers(World::settle, 52), delivers(World::settle, 53)), ([0, 0], [1, 0]));
    assert_eq!((delivers(World::settle_fair, 10), delivers(World::settle_fair, 12)), ([0, 0], [1, 1]));
    assert_eq!(receivers(&in_turn(&world, 12).0), [1, 2, 3, 4].repeat(3));
}

/// While the stores have letters they have their turn; then the mixers have all.
#[test]
fn processes_are_served_in_turn_and_those_without_letters_passed_over() {
    let mut world = stores_behind_mixers();
    let (chosen, settled) = in_turn(&world, BUDGET);
    assert_eq!(settled, Settled { arrivals: 54, done: true });
    assert_eq!(receivers(&chosen), [[1, 2, 3, 4].repeat(3), [1, 2].repeat(21)].concat());
    take(&mut world, &[crash(2), crash(3)]);
    let (chosen, _) = in_turn(&world, 5);
    assert_eq!(receivers(&chosen), [1, 4, 1, 4, 1], "down processes have no turn");
}

/// After an arrival at 2, the last process, the turn is that of 0; after one at 1, with letters to 1 alone, of 1.
#[test]
fn after_the_last_process_the_first_and_each_itself_last() {
    let mut world = fresh(&[0, 1, 2]);
    take(&mut world, &[multicast(0, 0b111), multicast(1, 0b101)]);
    let (chosen, _) = in_turn(&world, 7);
    assert_eq!(receivers(&chosen), [0, 1, 2, 0, 1, 2, 0]);
    let mut world = fresh(&[0, 1, 2]);
    take(&mut world, &[multicast(0, 0b010), multicast(2, 0b010)]);
    let (chosen, settled) = in_turn(&world, BUDGET);
    assert_eq!((receivers(&chosen), settled), (vec![1; 4], Settled { arrivals: 4, done: true }));
}

/// By message, then kind, then from: the OKs of message 0 are before all letters of message 1, that of process 0, which is
/// down, before that of process 1; the first letter of message 1, from process 1, is before the relay from process 0.
#[test]
fn the_lowest_letter_to_the_process_is_taken() {
    let mut world = fresh(&[0, 0]);
    take(&mut world, &[multicast(1, 1), multicast(1, 1)]);
    take(&mut world, &[arrival(0, 0, 1, 0), arrival(0, 1, 1, 0), crash(0)]);
    let (chosen, settled) = in_turn(&world, BUDGET);
    let due = [(0, 0, 1, 1), (2, 0, 0, 1), (2, 0, 1, 1), (0, 1, 1, 1), (1, 1, 0, 1), (2, 1, 1, 1)];
    assert_eq!(chosen, due.map(|(kind, message, from, to)| letter(kind, message, from, to)));
    assert_eq!(settled, Settled { arrivals: 6, done: true });
}

/// The first turn of each call is that of process 0, wherever the last arrival of the call before was.
#[test]
fn each_call_starts_afresh() {
    let mut world = fresh(&[0, 0, 0]);
    take(&mut world, &[multicast(0, 1), multicast(1, 1), multicast(2, 1)]);
    let mut first = |budget: u32| {
        let chosen = receivers(&in_turn(&world, budget).0);
        world.settle_fair(budget);
        chosen
    };
    assert_eq!([first(1), first(2), first(1), first(4)], [vec![0], vec![0, 1], vec![0], vec![0, 1, 2, 0]]);
}

/// With a budget of 1, again and again, it is always the lowest process that has a letter: the stores have theirs when the
/// mixers have nothing left to come.
#[test]
fn single_arrivals_are_those_of_the_lowest_process() {
    let mut world = stores_behind_mixers();
    let mut served = Vec::new();
    while !world.clone().settle_fair(0).done {
        let lowest = world.flight.iter().map(|letter| letter.to).min();
        assert_eq!(receivers(&in_turn(&world, 1).0), [lowest.unwrap()]);
        served.extend(lowest);
        world.settle_fair(1);
    }
    let stores = served.iter().position(|&p| p > 2).unwrap();
    assert_eq!((stores, &served[stores..]), (62, &[3, 3, 4, 3, 4, 4][..]));
}

#[test]
fn budgets_are_those_of_the_other_settle() {
    assert_eq!(fresh(&[0, 1]).settle_fair(0), Settled { arrivals: 0, done: true });
    let mut world = fresh(&[0, 1, 2]);
    take(&mut world, &[multicast(0, 0b110), crash(0), crash(2)]);
    for budget in 0..2 {
        assert_eq!(in_turn(&world, budget).1, Settled { arrivals: budget, done: false });
    }
    assert_eq!(in_turn(&world, 2).1, Settled { arrivals: 2, done: true });
    assert_eq!(world.settle_fair(u32::MAX), Settled { arrivals: 2, done: true });
    let left: BTreeSet<Letter> = [letter(0, 0, 0, 2), letter(2, 0, 1, 2)].into();
    assert_eq!(world.flight, left, "to a process that is down");
    take(&mut world, &[loss(0, 0, 0, 2), loss(2, 0, 1, 2)]);
    assert_eq!(world.settle_fair(BUDGET), Settled { arrivals: 0, done: true });
}

#[test]
fn full_fair_settle_of_16_processes() {
    let mut world = fresh(&[0, 0, 1, 1, 2, 2, 3, 3, 4, 4, 5, 5, 6, 6, 7, 7]);
    for message in 0..64 {
        take(&mut world, &[multicast(message % 16, 0xFF)]);
    }
    assert_eq!(world.clone().settle_fair(17_407), Settled { arrivals: 17_407, done: false });
    let (chosen, settled) = in_turn(&world, 17_408);
    assert_eq!(settled, Settled { arrivals: 17_408, done: true });
    assert!(chosen.iter().enumerate().all(|(at, letter)| letter.to == at % 16));
    assert_eq!(same_messages(&world, BUDGET), [0; 3], "both in the order of their numbers");
    world.settle_fair(BUDGET);
    assert!(world.processes.iter().all(|process| process.causal_log.len() == 64));
}

/// Some steps, with both settles among them, then crashes of some processes.
fn run(random: &mut Random, world: &mut World, history: &mut History) {
    let weights = random.pick(&[CALM, RACE, STORM, FLOOD, WRONG]);
    for _ in 0..random.below(300) {
        let step = sample::step(random, world, &weights);
        history.step(world, &step);
        if random.one_in(100) {
            random.pick(&support::SETTLES)(world, random.below(20) as u32);
        }
    }
    for _ in 0..random.below(3) {
        history.step(world, &crash(random.below(world.processes.len())));
    }
}

/// The most arrivals elsewhere that pass while a letter waits for a process that is up.
fn longest_wait(world: &World, chosen: &[Letter]) -> usize {
    let (mut world, mut passed, mut longest) = (world.clone(), vec![0; world.processes.len()], 0);
    for &letter in chosen {
        for (p, passed) in passed.iter_mut().enumerate() {
            let waits = world.processes[p].up && world.flight.iter().any(|letter| letter.to == p);
            *passed = if waits && letter.to != p { *passed + 1 } else { 0 };
            longest = longest.max(*passed);
        }
        take(&mut world, &[record::arrival(letter)]);
    }
    longest
}

/// With u processes up no more than u - 1 arrivals elsewhere pass, and so many do; with the lowest letter first many more.
#[test]
fn no_process_starves() {
    let (mut met, mut longer) = (BTreeSet::new(), 0);
    for number in 0..600 {
        let random = &mut Random::new(50, number);
        let most = if number % 4 == 0 { 16 } else { 6 };
        let mut world = World::fresh(&sample::setup(random, most)).unwrap();
        if number % 2 == 0 {
            let mut history = History::of_fresh(&world);
            run(random, &mut world, &mut history);
        } else {
            world = sample::sound_world(random, most);
        }
        let up = world.processes.iter().filter(|process| process.up).count();
        let budget = random.pick(&[20, 200, 1_000]);
        let longest = longest_wait(&world, &in_turn(&world, budget).0);
        assert!(longest < up.max(1), "run {number}: {longest} elsewhere, {up} up");
        if longest + 1 == up {
            met.insert(up);
        }
        let lowest: Choice = |world, _| world.flight.iter().copied().find(|l| world.processes[l.to].up);
        longer += usize::from(longest_wait(&world, &arrivals(&world, budget, lowest).0) >= up.max(1));
    }
    assert!((1..=16).all(|up| met.contains(&up)), "{met:?}");
    assert!(longer > 200, "{longer} times a process starves with the lowest letter first");
}

/// Both settles say done and leave the same messages in every log, of processes up or down: how many FIFO and how many
/// causal logs have them in another order, and whether the arrivals are of another number.
fn same_messages(world: &World, budget: u32) -> [usize; 3] {
    let (mut lowest, mut fair) = (world.clone(), world.clone());
    let settled = [lowest.settle(budget), fair.settle_fair(budget)];
    assert!(settled.iter().all(|settled| settled.done));
    let mut differ = [0, 0, usize::from(settled[0] != settled[1])];
    for (one, other) in lowest.processes.iter().zip(&fair.processes) {
        let pairs = [(&one.fifo_log, &other.fifo_log), (&one.causal_log, &other.causal_log)];
        for (pair, differ) in pairs.into_iter().zip(&mut differ) {
            let [one, other]: [BTreeSet<_>; 2] = [pair.0, pair.1].map(|log| log.iter().collect());
            assert_eq!(one, other);
            *differ += usize::from(pair.0 != pair.1);
        }
    }
    differ
}

/// Where steps led, whether the trust rule held or not; the letters of the messages bound the arrivals of both.
#[test]
fn both_settles_leave_the_same_messages_in_every_log() {
    let (mut differ, mut kept, mut broken) = ([0; 3], 0, 0);
    for number in 0..3_000 {
        let random = &mut Random::new(51, number);
        let most = if number % 8 == 0 { 16 } else { 6 };
        let mut world = World::fresh(&sample::setup(random, most)).unwrap();
        let mut history = History::of_fresh(&world);
        run(random, &mut world, &mut history);
        let logs = same_messages(&world, BUDGET);
        assert_eq!(same_messages(&world, letters(&world)), logs, "run {number}");
        differ.iter_mut().zip(logs).for_each(|(differ, logs)| *differ += logs);
        if history.trust_rule(&world) {
            kept += 1;
        } else {
            broken += 1;
        }
    }
    assert!(kept > 500 && broken > 500, "the trust rule held in {kept} runs and not in {broken}");
    assert!(differ.iter().all(|&times| times > 100), "{differ:?} logs in another order, and other numbers");
}

/// Two messages with the same sequence number: sound, but no steps lead there. Process 0 waits for the OK of process 1, of
/// message 0, which has not arrived there, and of message 1, which has. Whichever is first keeps out the other.
#[test]
fn where_no_steps_led_the_messages_may_differ() {
    let mut world = fresh(&[0, 0]);
    take(&mut world, &[multicast(0, 1), multicast(0, 1)]);
    world.messages[1].sequence_numbers[0] = 1;
    take(&mut world, &[arrival(0, 0, 0, 0), arrival(2, 0, 0, 0)]);
    take(&mut world, &[arrival(0, 1, 0, 0), arrival(2, 1, 0, 0), arrival(0, 1, 0, 1)]);
    assert_eq!(sound::read(&encode(&world)).as_ref(), Ok(&world));
    let (mut lowest, mut fair) = (world.clone(), world);
    assert!(lowest.settle(BUDGET).done && fair.settle_fair(BUDGET).done);
    assert_eq!([0, 1].map(|p| logs(&lowest, p).0), [[0], [0]]);
    assert_eq!([0, 1].map(|p| logs(&fair, p).0), [[1], [0]]);
}
