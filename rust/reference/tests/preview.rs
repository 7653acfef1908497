//! Document 02, card 2: a preview of a step.

mod support;

use reference::calls::{self, Previewed};
use reference::random::Random;
use reference::record::{crash, multicast, trust, Record};
use reference::sample::{self, CALM, FLOOD, RACE, STORM, WRONG};
use reference::words::{encode, log_place, WORDS};
use reference::world::{World, MESSAGES, PROCESSES};
use reference::Refusal;
use support::{arrival, fresh, loss, take};

/// Words that are no sound world, for the second slice.
static NO_WORLD: [u16; WORDS] = [0xA5A5; WORDS];

/// How many FIFO and how many causal deliveries the preview of a step says; the second slice has the step's words.
fn adds(world: &World, step: &[u8]) -> (u32, u32) {
    let (mut second, mut stepped) = (NO_WORLD, encode(world));
    let previewed = calls::preview(&encode(world), step, &mut second).unwrap();
    assert_eq!(calls::step(&mut stepped, step), Ok(()));
    assert!(second[..] == stepped[..], "step {step:?}");
    (previewed.fifo, previewed.causal)
}

/// Two processes in two groups, message 0 from 0 to both, process 1 down.
fn world() -> World {
    let mut world = fresh(&[0, 1]);
    take(&mut world, &[multicast(0, 3), crash(1)]);
    world
}

/// Known run 3, until message 2 is held at process 2 and its OK is in flight there.
fn overtaken() -> World {
    let mut world = fresh(&[0, 1, 2]);
    take(&mut world, &[multicast(0, 4), multicast(0, 2), arrival(0, 1, 0, 1), arrival(2, 1, 1, 1)]);
    take(&mut world, &[multicast(1, 4), arrival(0, 2, 1, 2)]);
    world
}

#[test]
fn a_multicast_a_loss_and_a_crash_add_none() {
    let world = world();
    for step in [multicast(0, 3), loss(0, 0, 0, 1), crash(0)] {
        assert_eq!(adds(&world, &step), (0, 0), "step {step:?}");
    }
}

#[test]
fn an_arrival_may_add_none_or_one_of_each() {
    let mut world = fresh(&[0, 1]);
    take(&mut world, &[multicast(0, 2)]);
    assert_eq!(adds(&world, &arrival(0, 0, 0, 1)), (0, 0));
    take(&mut world, &[arrival(0, 0, 0, 1)]);
    assert_eq!(adds(&world, &arrival(2, 0, 1, 1)), (1, 1));
}

#[test]
fn what_waits_for_a_message_before_it_is_a_fifo_delivery_alone() {
    assert_eq!(adds(&overtaken(), &arrival(2, 2, 2, 2)), (1, 0));
}

#[test]
fn a_fifo_delivery_may_bring_more_causal_ones() {
    let mut world = overtaken();
    take(&mut world, &[arrival(2, 2, 2, 2), arrival(0, 0, 0, 2)]);
    assert_eq!(adds(&world, &arrival(2, 0, 2, 2)), (1, 2));
}

#[test]
fn a_trust_step_adds_what_it_lets_in() {
    let mut world = fresh(&[0, 1, 2]);
    take(&mut world, &[multicast(0, 4), multicast(1, 4), arrival(0, 1, 1, 2), arrival(0, 0, 0, 2)]);
    assert_eq!(adds(&world, &trust(2, 0b111)), (0, 0));
    assert_eq!(adds(&world, &trust(2, 0)), (2, 2));
    let mut world = overtaken();
    take(&mut world, &[multicast(2, 4), arrival(0, 3, 2, 2)]);
    assert_eq!(adds(&world, &trust(2, 0)), (2, 1), "message 2 waits for message 0");
}

#[test]
fn deliveries_of_before_and_of_others_are_not_counted() {
    let mut world = fresh(&[0, 0, 1]);
    for sender in [0, 1, 2, 0, 1] {
        take(&mut world, &[multicast(sender, 3)]);
        assert!(world.settle(u32::MAX).done);
    }
    take(&mut world, &[multicast(2, 2), arrival(0, 5, 2, 2)]);
    assert!(world.processes.iter().all(|process| process.causal_log.len() == 5));
    assert_eq!(adds(&world, &crash(0)), (0, 0));
    assert_eq!(adds(&world, &arrival(2, 5, 2, 2)), (1, 1));
}

/// The refusal of a preview into the given words, which stay as they are.
fn refused(words: &[u16], step: &[u8], second: &[u16]) -> Option<Refusal> {
    let mut lent = second.to_vec();
    let refusal = calls::preview(words, step, &mut lent).err();
    assert!(refusal.is_none() || lent == second, "step {step:?}");
    refusal
}

#[test]
fn refusal_1_covers_either_slice_and_comes_before_2_and_4() {
    let words = encode(&world());
    let malformed = [9; 8];
    for length in [0, WORDS - 1, WORDS + 1] {
        let mut wrong = words.clone();
        wrong.resize(length, 0);
        for step in [&multicast(0, 3), &malformed] {
            assert_eq!(refused(&wrong, step, &words), Some(Refusal::WorldLength), "world of {length}");
            assert_eq!(refused(&words, step, &wrong), Some(Refusal::WorldLength), "second slice of {length}");
            assert_eq!(refused(&NO_WORLD, step, &wrong), Some(Refusal::WorldLength), "before 2, {length}");
        }
        assert_eq!(refused(&wrong, &malformed, &wrong), Some(Refusal::WorldLength), "both of {length}");
    }
}

#[test]
fn refusal_2_is_of_the_world_alone() {
    let words = encode(&world());
    for step in [multicast(0, 3), [9; 8]] {
        assert_eq!(refused(&NO_WORLD, &step, &words), Some(Refusal::NotSound));
        assert_eq!(refused(&NO_WORLD, &step, &NO_WORLD), Some(Refusal::NotSound));
    }
    for second in [&words[..], &NO_WORLD, &[0; WORDS]] {
        assert_eq!(refused(&words, &multicast(0, 3), second), None);
    }
}

#[test]
fn a_step_that_would_be_refused_is_refused_alike() {
    let mut full = fresh(&[0, 1]);
    take(&mut full, &[multicast(0, 1); MESSAGES]);
    let steps: [(World, Record, Refusal); 9] = [
        (world(), [9; 8], Refusal::Form),
        (world(), crash(2), Refusal::NoProcess),
        (world(), multicast(0, 4), Refusal::GroupMask),
        (world(), arrival(0, 1, 0, 0), Refusal::NoMessage),
        (world(), trust(0, 4), Refusal::TrustMask),
        (world(), arrival(0, 0, 0, 1), Refusal::Down),
        (full, multicast(0, 1), Refusal::Full),
        (world(), arrival(1, 0, 0, 0), Refusal::NotInFlight),
        (world(), loss(0, 0, 0, 0), Refusal::BothUp),
    ];
    for (mut world, step, refusal) in steps {
        assert_eq!(refused(&encode(&world), &step, &NO_WORLD), Some(refusal));
        support::refused(&mut world, &step, refusal);
    }
    assert_eq!(refused(&encode(&world()), &multicast(0, 1)[..7], &NO_WORLD), Some(Refusal::Form));
}

/// The lengths of all FIFO and of all causal logs, each taken together, by the words where they stand.
fn lengths(words: &[u16]) -> (u32, u32) {
    let all = |causal: bool| (0..PROCESSES).map(|p| u32::from(words[log_place(p, causal).1])).sum();
    (all(false), all(true))
}

/// The answer and the words of the step, and the growth of the logs; a refusal leaves the second slice.
fn previewed_as_stepped(words: &[u16], step: &[u8], second: &[u16]) -> Result<Previewed, Refusal> {
    let (mut lent, mut stepped) = (second.to_vec(), words.to_vec());
    let previewed = calls::preview(words, step, &mut lent);
    match calls::step(&mut stepped, step) {
        Ok(()) => {
            let ((fifo, causal), (fifo_then, causal_then)) = (lengths(words), lengths(&stepped));
            let grown = Previewed { fifo: fifo_then - fifo, causal: causal_then - causal };
            assert_eq!(previewed, Ok(grown), "step {step:?}");
            assert!(lent == stepped, "step {step:?}");
        }
        Err(refusal) => {
            assert_eq!(previewed, Err(refusal), "step {step:?}");
            assert!(lent == second, "step {step:?}");
        }
    }
    previewed
}

/// On the way of random runs, from fresh worlds and from others that are sound.
#[test]
fn a_preview_is_the_step_on_a_copy() {
    let (mut refused, mut more, mut fewer, mut same) = (0, 0, 0, 0);
    for run in 0..400 {
        let random = &mut Random::new(44, run);
        let mut world = match run % 4 {
            0 => sample::sound_world(random, 6),
            _ => World::fresh(&sample::setup(random, 6)).unwrap(),
        };
        let weights = random.pick(&[CALM, RACE, RACE, STORM, FLOOD, WRONG]);
        for _ in 0..100 {
            let words = encode(&world);
            let step = sample::step(random, &world, &weights);
            match previewed_as_stepped(&words, &step, &NO_WORLD) {
                Err(_) => refused += 1,
                Ok(adds) if adds.causal > adds.fifo => more += 1,
                Ok(adds) if adds.causal < adds.fifo => fewer += 1,
                Ok(adds) => same += usize::from(adds.fifo > 0),
            }
            let _ = world.step(&step);
        }
    }
    let seen = [refused, more, fewer, same];
    assert!(seen.iter().all(|&times| times > 20), "{seen:?}");
}
