//! What each step does, exactly; some on worlds that are sound but that no run reaches.

mod support;

use reference::record::{crash, multicast, trust};
use reference::settle::Settled;
use reference::world::{Kind, Letter, World};
use std::collections::BTreeSet;
use support::{arrival, fresh, letter, logs, loss, take};

fn flight(letters: &[(usize, usize, usize, usize)]) -> BTreeSet<Letter> {
    letters.iter().map(|&(kind, message, from, to)| letter(kind, message, from, to)).collect()
}

#[test]
fn multicast_raises_then_copies() {
    let mut world = fresh(&[0, 1, 1, 2]);
    take(&mut world, &[crash(2), multicast(0, 2), multicast(0, 6), multicast(3, 1)]);
    assert_eq!(world.messages[0].sequence_numbers, [0, 1, 0, 0, 0, 0, 0, 0]);
    assert_eq!(world.messages[1].sequence_numbers, [0, 2, 1, 0, 0, 0, 0, 0]);
    assert_eq!((world.messages[1].counters[1][0], world.messages[1].counters[2][0]), (2, 1));
    assert_eq!(world.processes[0].sequence_counts, world.messages[1].sequence_numbers);
    assert_eq!(world.processes[0].counters, world.messages[1].counters);
    assert_eq!(world.messages[2].counters[0][3], 1);
    assert_eq!(world.messages[2].sender, 3);
    let to_all = [(0, 0, 0, 1), (0, 0, 0, 2), (0, 1, 0, 1), (0, 1, 0, 2), (0, 1, 0, 3), (0, 2, 3, 0)];
    assert_eq!(world.flight, flight(&to_all), "down addressees too");
}

#[test]
fn a_message_in_turn_is_answered_by_ok_and_another_by_relay() {
    let mut world = fresh(&[0, 1, 1]);
    take(&mut world, &[multicast(0, 2), multicast(0, 2)]);
    take(&mut world, &[arrival(0, 1, 0, 1)]);
    assert!(world.processes[1].held[1] && !world.processes[1].held[0]);
    let relays = [(0, 0, 0, 1), (0, 0, 0, 2), (0, 1, 0, 2), (1, 1, 1, 1), (1, 1, 1, 2)];
    assert_eq!(world.flight, flight(&relays));
    take(&mut world, &[arrival(0, 0, 0, 1)]);
    let oks = [(0, 0, 0, 2), (0, 1, 0, 2), (1, 1, 1, 1), (1, 1, 1, 2), (2, 0, 1, 1), (2, 0, 1, 2)];
    assert_eq!(world.flight, flight(&oks));
    take(&mut world, &[arrival(1, 1, 1, 1)]);
    assert_eq!(world.flight.len(), 5, "a held message is not answered again");
}

#[test]
fn an_ok_marks_its_origin_and_brings_the_message() {
    let mut world = fresh(&[0, 1, 1]);
    take(&mut world, &[multicast(0, 2), arrival(0, 0, 0, 1), arrival(2, 0, 1, 2)]);
    let receiver = &world.processes[2];
    assert!(receiver.held[0] && receiver.marks[0][1] && !receiver.marks[0][2]);
    assert_eq!(world.flight, flight(&[(0, 0, 0, 2), (2, 0, 1, 1), (2, 0, 2, 1), (2, 0, 2, 2)]));
    assert!(receiver.fifo_log.is_empty());
    take(&mut world, &[arrival(2, 0, 2, 2)]);
    assert_eq!(logs(&world, 2), (&[0][..], &[0][..]));
    assert_eq!((world.processes[2].next[0], world.processes[2].del[0]), (2, 1));
}

/// Process 2 holds message 1 and message 2, each the second of its sender, and message 0, the first of sender 0.
#[test]
fn a_fifo_delivery_sends_ok_for_that_sender_alone() {
    let mut world = fresh(&[0, 1, 2]);
    take(&mut world, &[multicast(0, 4), multicast(0, 4), multicast(1, 4), trust(2, 0b111)]);
    take(&mut world, &[arrival(0, 1, 0, 2), arrival(0, 2, 1, 2), arrival(0, 0, 0, 2)]);
    take(&mut world, &[arrival(1, 1, 2, 2)]);
    assert_eq!(world.flight, flight(&[(2, 0, 2, 2), (2, 2, 2, 2)]));
    take(&mut world, &[arrival(2, 2, 2, 2)]);
    assert_eq!(world.flight, flight(&[(2, 0, 2, 2)]), "no OK for sender 0");
    take(&mut world, &[arrival(2, 0, 2, 2)]);
    assert_eq!(world.flight, flight(&[(2, 1, 2, 2)]), "the OK of sender 0's next");
}

#[test]
fn an_earlier_ok_of_another_sender_is_not_sent_again() {
    let mut world = fresh(&[0, 1, 2]);
    take(&mut world, &[multicast(0, 4), multicast(1, 4), arrival(0, 0, 0, 2), arrival(0, 1, 1, 2)]);
    take(&mut world, &[crash(0)]);
    assert_eq!(world.flight, flight(&[(2, 0, 2, 2), (2, 1, 2, 2)]));
    world.flight.clear();
    take(&mut world, &[trust(2, 0b011)]);
    assert_eq!(logs(&world, 2).0, [0, 1]);
    assert!(world.flight.is_empty(), "message 1 was in turn before, and is of another sender");
}

#[test]
fn the_lowest_ready_message_comes_first() {
    let mut world = fresh(&[0, 1, 2]);
    take(&mut world, &[multicast(0, 4), multicast(1, 4), arrival(0, 1, 1, 2), arrival(0, 0, 0, 2)]);
    assert_eq!(logs(&world, 2).0.len(), 0);
    take(&mut world, &[trust(2, 0)]);
    assert_eq!(logs(&world, 2), (&[0, 1][..], &[0, 1][..]));
}

#[test]
fn only_trusted_addressees_are_waited_for() {
    let mut world = fresh(&[0, 1, 1]);
    take(&mut world, &[trust(1, 0b011), multicast(0, 2), arrival(0, 0, 0, 1)]);
    assert!(logs(&world, 1).0.is_empty());
    take(&mut world, &[arrival(2, 0, 1, 1)]);
    assert_eq!(logs(&world, 1).0, [0], "0 is trusted but no addressee, 2 is an addressee but not trusted");
}

#[test]
fn loss_only_takes_the_letter() {
    let mut world = fresh(&[0, 1]);
    take(&mut world, &[multicast(0, 3), crash(1)]);
    let mut expected = world.clone();
    take(&mut world, &[loss(0, 0, 0, 1)]);
    expected.flight.remove(&letter(0, 0, 0, 1));
    assert_eq!(world, expected);
}

/// Processes 1 and 3 are down. The lowest letter is to process 1, and the next one from process 3.
#[test]
fn settle_takes_the_lowest_letter_whose_receiver_is_up() {
    let mut world = fresh(&[0, 1, 1, 2]);
    take(&mut world, &[multicast(3, 2), multicast(0, 2), crash(1), crash(3)]);
    let mut expected = world.clone();
    assert_eq!(world.settle(1), Settled { arrivals: 1, done: false });
    take(&mut expected, &[arrival(0, 0, 3, 2)]);
    assert_eq!(world, expected, "not message 1, whose sender is up");
    assert_eq!(world.settle(0), Settled { arrivals: 0, done: false });
    assert_eq!(world, expected);
    assert_eq!(world.clone().settle(3), Settled { arrivals: 3, done: true });
    assert_eq!(world.settle(100), Settled { arrivals: 3, done: true });
    take(&mut expected, &[arrival(2, 0, 2, 2), arrival(0, 1, 0, 2), arrival(2, 1, 2, 2)]);
    assert_eq!(world, expected);
    let to_process_1 = [(0, 0, 3, 1), (0, 1, 0, 1), (2, 0, 2, 1), (2, 1, 2, 1)];
    assert_eq!(world.flight, flight(&to_process_1), "left, since it is down");
}

/// After two arrivals one letter is left, from process 0, which is down.
#[test]
fn settle_stops_before_a_letter_of_a_process_that_is_down() {
    let mut world = fresh(&[0, 1]);
    take(&mut world, &[multicast(0, 2), multicast(0, 2), crash(0)]);
    for budget in 0..4 {
        assert_eq!(world.clone().settle(budget), Settled { arrivals: budget, done: false });
    }
    assert_eq!(world.clone().settle(4), Settled { arrivals: 4, done: true });
    assert_eq!(world.settle(2), Settled { arrivals: 2, done: false });
    assert_eq!(world.flight, flight(&[(0, 1, 0, 1)]));
    assert_eq!(world.settle(0), Settled { arrivals: 0, done: false });
    assert_eq!(world.settle(3), Settled { arrivals: 2, done: true });
    assert_eq!(logs(&world, 1), (&[0, 1][..], &[0, 1][..]));
}

/// Both messages held at process 1, with the same sequence number at group 1, and message 0 in turn.
fn same_numbers() -> World {
    let mut world = fresh(&[0, 1]);
    take(&mut world, &[multicast(0, 2), multicast(0, 2), multicast(0, 2)]);
    for message in [1, 2] {
        world.messages[message].sequence_numbers[1] = 2;
        world.processes[1].held[message] = true;
    }
    world
}

#[test]
fn ok_is_sent_for_each_held_message_with_the_next_number() {
    let mut world = same_numbers();
    take(&mut world, &[arrival(0, 0, 0, 1), arrival(2, 0, 1, 1)]);
    for message in [1, 2] {
        assert!(world.flight.contains(&Letter { message, kind: Kind::Ok, from: 1, to: 1 }));
    }
}

#[test]
fn del_becomes_the_messages_counter() {
    let mut world = same_numbers();
    world.messages[0].counters[1][0] = 3;
    take(&mut world, &[arrival(0, 0, 0, 1), arrival(2, 0, 1, 1)]);
    assert_eq!(world.processes[1].del[0], 3);
    assert_eq!(world.processes[1].counters[1][0], 3);
}

#[test]
fn counters_rise_to_the_maximum_entry_by_entry() {
    let mut world = fresh(&[0, 1]);
    take(&mut world, &[multicast(0, 2), multicast(0, 2), multicast(0, 2)]);
    world.messages[0].counters[0] = [3, 1, 0, 0, 0, 0, 0, 0, 0, 0, 0, 0, 0, 0, 0, 0];
    world.processes[1].counters[0] = [1, 2, 0, 0, 0, 0, 0, 0, 0, 0, 0, 0, 0, 0, 0, 0];
    take(&mut world, &[arrival(0, 0, 0, 1), arrival(2, 0, 1, 1)]);
    assert_eq!(world.processes[1].counters[0][..2], [3, 2]);
}
