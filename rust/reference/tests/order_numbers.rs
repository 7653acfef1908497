//! Document 02, card 1: the order number of a message.

mod support;

use reference::calls;
use reference::random::Random;
use reference::record::{crash, multicast, multicast_with_order, trust, Record};
use reference::replay::output;
use reference::sample::{self, CALM, FLOOD, RACE, STORM, WRONG};
use reference::sound;
use reference::words::{encode, order_place, WORDS};
use reference::world::{World, MESSAGES};
use reference::Refusal;
use support::{arrival, fresh, journal_of, loss, refused, stored, take, SETTLES};

/// The order numbers of all messages.
fn orders(world: &World) -> Vec<u16> {
    world.messages.iter().map(|message| message.order).collect()
}

/// Two processes in two groups; messages 0, 1 and 2 have the order numbers 1017, none and 65535.
fn world() -> World {
    let mut world = fresh(&[0, 1]);
    take(&mut world, &[multicast_with_order(0, 2, 1_017), multicast(1, 3)]);
    take(&mut world, &[multicast_with_order(0, 3, 65_535)]);
    world
}

#[test]
fn the_low_byte_comes_first() {
    for (low, high, order) in [(0xF9, 3, 1_017), (0, 0, 0), (1, 0, 1), (0, 1, 256), (255, 255, 65_535)] {
        let step = [1, 0, 2, low, high, 0, 0, 0];
        assert_eq!(step, multicast_with_order(0, 2, order));
        let mut world = fresh(&[0, 1]);
        take(&mut world, &[step]);
        assert_eq!(orders(&world), [order]);
    }
}

#[test]
fn bytes_3_and_4_are_judged_no_more_and_bytes_5_to_7_are() {
    let mut world = world();
    for used in [3, 4] {
        let mut step = multicast(0, 1);
        step[used] = 255;
        take(&mut world, &[step]);
    }
    assert_eq!(orders(&world), [1_017, 0, 65_535, 255, 65_280]);
    for unused in [5, 6, 7] {
        let mut step = multicast_with_order(0, 1, 1_017);
        step[unused] = 1;
        refused(&mut world, &step, Refusal::Form);
    }
}

/// With bytes 3 and 4 set, a record gets what its other bytes deserve.
#[test]
fn a_multicast_with_a_number_is_refused_for_its_other_bytes() {
    let with = |process: usize, groups: u8| multicast_with_order(process, groups, 1_017);
    let mut world = world();
    refused(&mut world, &with(2, 0), Refusal::NoProcess);
    refused(&mut world, &with(0, 0), Refusal::GroupMask);
    refused(&mut world, &with(0, 4), Refusal::GroupMask);
    take(&mut world, &[crash(1)]);
    refused(&mut world, &with(1, 1), Refusal::Down);
    while world.messages.len() < MESSAGES {
        take(&mut world, &[with(0, 1)]);
    }
    refused(&mut world, &with(0, 1), Refusal::Full);
    assert_eq!(orders(&world)[..3], [1_017, 0, 65_535]);
}

#[test]
fn a_refused_number_is_not_kept() {
    let mut world = world();
    refused(&mut world, &multicast_with_order(0, 4, 300), Refusal::GroupMask);
    assert_eq!(encode(&world)[order_place(3)], 0);
    take(&mut world, &[multicast(0, 1)]);
    assert_eq!(orders(&world), [1_017, 0, 65_535, 0]);
}

#[test]
fn other_steps_keep_every_number() {
    let mut world = world();
    take(&mut world, &[arrival(0, 0, 0, 1), arrival(2, 0, 1, 1), trust(0, 1), crash(1), loss(0, 2, 0, 1)]);
    assert_eq!(orders(&world), [1_017, 0, 65_535]);
    assert!(world.settle(1).arrivals == 1 && orders(&world) == [1_017, 0, 65_535]);
}

#[test]
fn the_number_stands_where_the_layout_has_it() {
    let words = encode(&world());
    assert_eq!([0, 1, 63].map(order_place), [6_867 + 186, 6_867 + 187 + 186, 18_834]);
    assert_eq!([0, 1, 2, 3].map(|message| words[order_place(message)]), [1_017, 0, 65_535, 0]);
}

#[test]
fn the_call_gives_it_or_refuses_1_2_and_7() {
    let mut words = encode(&world());
    assert_eq!([0, 1, 2].map(|message| calls::order(&words, message)), [Ok(1_017), Ok(0), Ok(65_535)]);
    for message in [3, 63, 64, 255, u32::MAX as usize] {
        assert_eq!(calls::order(&words, message), Err(Refusal::NoMessage), "message {message}");
    }
    words[0] = 17;
    assert_eq!(calls::order(&words, 0), Err(Refusal::NotSound));
    assert_eq!(calls::order(&words, 64), Err(Refusal::NotSound));
    for length in [0, WORDS - 1, WORDS + 1] {
        assert_eq!(calls::order(&vec![7; length], 64), Err(Refusal::WorldLength));
    }
}

#[test]
fn any_number_of_a_message_is_sound_and_none_of_an_absent_one() {
    let words = encode(&world());
    for number in [1, 255, 256, 0x8000, 65_535] {
        for message in 0..MESSAGES {
            let mut changed = words.clone();
            changed[order_place(message)] = number;
            assert_eq!(sound::read(&changed).is_ok(), message < 3, "number {number} of message {message}");
        }
    }
}

/// The record with zeros for its order number, if it is a multicast's.
fn without_order(record: &[u8]) -> Vec<u8> {
    let of_order = |at: usize| record[0] == 1 && (at == 3 || at == 4);
    record.iter().enumerate().map(|(at, &byte)| if of_order(at) { 0 } else { byte }).collect()
}

/// The words of a world with zeros for its order numbers.
fn words_without_orders(world: &World) -> Vec<u16> {
    let mut words = encode(world);
    for message in 0..MESSAGES {
        words[order_place(message)] = 0;
    }
    words
}

/// After each step: the same answer, and the same words but for the order words.
#[test]
fn no_number_changes_anything_else() {
    let (mut numbers, mut refused) = (0, 0);
    for run in 0..400 {
        let random = &mut Random::new(43, run);
        let mut world = World::fresh(&sample::setup(random, 8)).unwrap();
        let mut zeros = world.clone();
        let weights = random.pick(&[CALM, RACE, STORM, FLOOD, WRONG]);
        for _ in 0..random.below(300) {
            let step = sample::step(random, &world, &weights);
            let answer = world.step(&step);
            assert_eq!(zeros.step(&without_order(&step)), answer, "run {run}, step {step:?}");
            refused += usize::from(answer.is_err());
            assert_eq!(encode(&zeros), words_without_orders(&world), "run {run}, step {step:?}");
        }
        let budget = random.below(100) as u32;
        for settle in SETTLES {
            let (mut zeros, mut world) = (zeros.clone(), world.clone());
            assert_eq!(settle(&mut zeros, budget), settle(&mut world, budget));
            assert_eq!(encode(&zeros), words_without_orders(&world), "run {run}");
        }
        numbers += orders(&world).iter().filter(|&&order| order != 0).count();
    }
    assert!(numbers > 1_000 && refused > 1_000, "{numbers} numbers, {refused} refused");
}

/// A journal, and the one with zeros for its order numbers: the same counts and logs, and the same words but for the
/// order words.
#[test]
fn a_journal_with_zeros_replays_to_the_same_words_but_for_the_numbers() {
    let records = stored("orders");
    let zeros: Vec<Record> = records.iter().map(|record| without_order(record).try_into().unwrap()).collect();
    let (journal, zeros) = (journal_of(&records), journal_of(&zeros));
    assert_eq!(output(&zeros), output(&journal));
    let (mut words, mut words_of_zeros) = (vec![0; WORDS], vec![0; WORDS]);
    assert_eq!(calls::replay(&mut words_of_zeros, &zeros), calls::replay(&mut words, &journal));
    let world = sound::read(&words).unwrap();
    assert_eq!(orders(&world), [1_017, 65_535, 256, 0]);
    assert_eq!(words_of_zeros, words_without_orders(&world));
    assert_ne!(words_of_zeros, words);
}
