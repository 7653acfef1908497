//! What each settle leaves in flight, as card 4 of document 02 has it: nothing that is to come to a process that is up,
//! whoever sent it, once it says done.

mod support;

use reference::random::Random;
use reference::record::{self, crash, multicast};
use reference::sample::{self, CALM, FLOOD, RACE, STORM, WRONG};
use reference::settle::Settled;
use reference::sound;
use reference::words::encode;
use reference::world::{Kind, Letter, World};
use support::{fresh, letters, sum, take, Settle, BUDGET, SETTLES};

/// Some steps, then crashes of some processes, so that their letters are left in flight: how many letters have ended.
fn steps_and_crashes(random: &mut Random, world: &mut World) -> u32 {
    let weights = random.pick(&[CALM, RACE, STORM, FLOOD, WRONG]);
    let mut ended = 0;
    for _ in 0..random.below(300) {
        let step = sample::step(random, world, &weights);
        let taken = world.step(&step).is_ok();
        ended += u32::from(taken && matches!(step[0], 2 | 3));
    }
    for _ in 0..random.below(world.processes.len()) {
        let _ = world.step(&crash(random.below(world.processes.len())));
    }
    ended
}

/// How often a settle was met that says something of letters with one end down.
#[derive(Default)]
struct Met {
    arrived: usize,
    stopped_before: usize,
    left: usize,
}

impl Met {
    fn note(&mut self, before: &World, settled: Settled, after: &World) {
        let up = |process: usize| before.processes[process].up;
        let of_down = |letter: &Letter| !up(letter.from) && up(letter.to);
        self.arrived += usize::from(settled.done && before.flight.iter().any(of_down));
        self.stopped_before +=
            usize::from(!settled.done && after.flight.iter().all(|l| of_down(l) || !up(l.to)));
        self.left += usize::from(settled.done && !after.flight.is_empty());
    }

    fn check(&self) {
        let Met { arrived, stopped_before, left } = *self;
        assert!(arrived > 500, "{arrived} times done after letters of processes that are down");
        assert!(stopped_before > 50, "{stopped_before} times stopped before letters of these alone");
        assert!(left > 500, "{left} times done with letters to processes that are down");
    }
}

/// Settles with this budget. Done: no letter is in flight to a process that is up. Stopped: the budget is used, and
/// one is. What was in flight to a process that is down still is.
fn settle(world: &World, by: Settle, budget: u32, met: &mut Met) -> (Settled, World) {
    let mut after = world.clone();
    let settled = by(&mut after, budget);
    let up = |letter: &Letter| world.processes[letter.to].up;
    assert_eq!(settled.done, !after.flight.iter().any(up), "{settled:?} of {budget}");
    assert!(if settled.done { settled.arrivals <= budget } else { settled.arrivals == budget });
    assert!(world.flight.iter().all(|letter| up(letter) || after.flight.contains(letter)));
    met.note(world, settled, &after);
    (settled, after)
}

/// A settle with this budget says done, and with a smaller one just if it is enough: the arrivals, and how many letters
/// are left.
fn settles(world: &World, by: Settle, budget: u32, met: &mut Met) -> (u32, u32) {
    let (Settled { arrivals, done }, after) = settle(world, by, budget, met);
    assert!(done, "{arrivals} arrivals");
    for fewer in arrivals.saturating_sub(3)..=arrivals {
        let settled = settle(world, by, fewer, met).0;
        assert_eq!(settled, Settled { arrivals: fewer, done: fewer == arrivals });
    }
    (arrivals, after.flight.len() as u32)
}

#[test]
fn nothing_is_to_come_after_done_where_steps_led() {
    let mut met: [Met; SETTLES.len()] = Default::default();
    for run in 0..1_000 {
        let random = &mut Random::new(36, run);
        let most = if run % 4 == 0 { 16 } else { 6 };
        let mut world = World::fresh(&sample::setup(random, most)).unwrap();
        let ended = steps_and_crashes(random, &mut world);
        for (by, met) in SETTLES.into_iter().zip(&mut met) {
            let (arrivals, left) = settles(&world, by, BUDGET, met);
            assert!(ended + arrivals + left <= letters(&world), "run {run}: each letter flies once");
        }
    }
    met.iter().for_each(Met::check);
}

#[test]
fn nothing_is_to_come_after_done_in_any_sound_world() {
    let mut met: [Met; SETTLES.len()] = Default::default();
    for run in 0..1_000 {
        let random = &mut Random::new(37, run);
        let mut world = sample::sound_world(random, if run % 4 == 0 { 16 } else { 6 });
        steps_and_crashes(random, &mut world);
        for (by, met) in SETTLES.into_iter().zip(&mut met) {
            settles(&world, by, sum(&world, 4), met);
        }
    }
    met.iter().for_each(Met::check);
}

/// The settle of before card 4: letters between two up processes only.
fn settle_of_before(world: &mut World) -> u32 {
    let mut arrivals = 0;
    let both_up =
        |world: &World, letter: &Letter| world.processes[letter.from].up && world.processes[letter.to].up;
    while let Some(letter) = world.flight.iter().copied().find(|letter| both_up(world, letter)) {
        take(world, &[record::arrival(letter)]);
        arrivals += 1;
    }
    arrivals
}

/// With the letters of the dead lost beforehand, nothing has changed.
#[test]
fn without_letters_of_the_dead_it_is_the_settle_of_before() {
    let mut lost = 0;
    for run in 0..1_000 {
        let random = &mut Random::new(38, run);
        let mut world = sample::sound_world(random, 6);
        steps_and_crashes(random, &mut world);
        let of_dead = |letter: &Letter| !world.processes[letter.from].up;
        let letters: Vec<Letter> = world.flight.iter().copied().filter(of_dead).collect();
        for &letter in &letters {
            take(&mut world, &[record::loss(letter)]);
        }
        lost += letters.len();
        let mut before = world.clone();
        let arrivals = settle_of_before(&mut before);
        assert_eq!(world.settle(u32::MAX), Settled { arrivals, done: true });
        assert_eq!(world, before, "run {run}");
    }
    assert!(lost > 1_000, "{lost} letters of the dead");
}

/// 64 messages of one process to 16, their sequence numbers backwards and every letter in flight: sound, but no steps lead
/// there, and 33,792 arrivals are not enough.
#[test]
fn a_world_that_no_steps_reach_can_need_more_arrivals() {
    let mut world = fresh(&[0, 0, 1, 1, 2, 2, 3, 3, 4, 4, 5, 5, 6, 6, 7, 7]);
    for message in 0..64 {
        take(&mut world, &[multicast(0, 0xFF)]);
        world.messages[message].sequence_numbers = [64 - message as u16; 8];
        for (from, to) in (0..16).flat_map(|from| (0..16).map(move |to| (from, to))) {
            world.flight.insert(Letter { message, kind: Kind::Relay, from, to });
            world.flight.insert(Letter { message, kind: Kind::Ok, from, to });
        }
    }
    assert_eq!(sound::read(&encode(&world)).as_ref(), Ok(&world));
    for by in SETTLES {
        let mut met = Met::default();
        assert_eq!(settle(&world, by, BUDGET, &mut met).0, Settled { arrivals: BUDGET, done: false });
        assert_eq!(settles(&world, by, sum(&world, 4), &mut met), (49_920, 0));
    }
}
