//! Document 01, "Known runs", and the run of card 4 of document 02.

mod support;

use reference::journal;
use reference::record::{crash, multicast, setup, Record};
use reference::replay::{output, replay};
use reference::settle::Settled;
use reference::world::World;
use reference::Refusal;
use support::{arrival, fresh, journal_of, logs, loss, refused, take};

#[test]
fn run_1_one_process() {
    let steps = [multicast(0, 1), arrival(0, 0, 0, 0), arrival(2, 0, 0, 0), arrival(2, 0, 0, 0)];
    let mut records = vec![setup(&[0])];
    records.extend(steps);
    assert_eq!(output(&journal_of(&records)), "steps 4 refused 1\n0 up f 0 c 0\n");
}

#[test]
fn run_1_a_refused_journal() {
    assert_eq!(output(&[]), "journal 13\n");
    let mut journal = journal_of(&[setup(&[0])]);
    journal[511] ^= 1;
    assert_eq!(output(&journal), "journal 14\n");
    assert_eq!(output(&journal_of(&[[0; 8]])), "journal 3\n");
}

#[test]
fn run_2_check() {
    let journal = journal_of(&[setup(&[0])]);
    assert_eq!(journal[510..], [0xFE, 0xFE]);
    assert_eq!(journal::count(&journal), Ok(1));
    assert_eq!(output(&journal), "steps 0 refused 0\n0 up f c\n");
}

/// Until message 2 has arrived at process 2: 0 multicast message 0 to group 2 and message 1 to group 1; process 1
/// delivered message 1 and multicast message 2 to group 2.
const OVERTAKEN: [Record; 7] = [
    [1, 0, 4, 0, 0, 0, 0, 0],
    [1, 0, 2, 0, 0, 0, 0, 0],
    [2, 0, 1, 0, 1, 0, 0, 0],
    [2, 2, 1, 1, 1, 0, 0, 0],
    [1, 1, 4, 0, 0, 0, 0, 0],
    [2, 0, 2, 1, 2, 0, 0, 0],
    [2, 2, 2, 2, 2, 0, 0, 0],
];

#[test]
fn run_3_a_message_overtaken_waits() {
    assert_eq!(setup(&[0, 1, 2]), [0, 3, 0x88, 0, 0, 0, 0, 0]);
    let mut world = fresh(&[0, 1, 2]);
    take(&mut world, &OVERTAKEN);
    assert_eq!(logs(&world, 1), (&[1][..], &[1][..]));
    assert_eq!(logs(&world, 2), (&[2][..], &[][..]));
    take(&mut world, &[arrival(0, 0, 0, 2), arrival(2, 0, 2, 2)]);
    assert_eq!(logs(&world, 2), (&[2, 0][..], &[0, 2][..]));
}

#[test]
fn run_3_printed() {
    let mut records = vec![setup(&[0, 1, 2])];
    records.extend(OVERTAKEN);
    records.extend([arrival(0, 0, 0, 2), arrival(2, 0, 2, 2), crash(0), crash(0)]);
    let text = "steps 11 refused 1\n0 down f c\n1 up f 1 c 1\n2 up f 2 0 c 0 2\n";
    assert_eq!(output(&journal_of(&records)), text);
}

#[test]
fn run_4_the_message_before_is_lost() {
    let mut world = fresh(&[0, 1, 2]);
    take(&mut world, &OVERTAKEN);
    take(&mut world, &[crash(0), loss(0, 0, 0, 2)]);
    assert_eq!(logs(&world, 2), (&[2][..], &[][..]));
    assert_eq!(world.settle(33_792), Settled { arrivals: 0, done: true });
    take(&mut world, &[multicast(1, 4), multicast(2, 7)]);
    assert!(world.settle(33_792).done);
    assert_eq!(logs(&world, 2).0[0], 2);
    assert!(!logs(&world, 2).1.contains(&2));
}

#[test]
fn run_5_setups() {
    assert_eq!(World::fresh(&[0, 16, 0, 0, 0, 0, 0, 0]).unwrap().processes.len(), 16);
    assert_eq!(World::fresh(&[0, 17, 0, 0, 0, 0, 0, 0]), Err(Refusal::Setup));
    assert_eq!(World::fresh(&setup(&[0, 2])), Err(Refusal::Setup));
}

#[test]
fn run_6_the_65th_multicast() {
    let mut world = fresh(&[0]);
    for _ in 0..64 {
        take(&mut world, &[multicast(0, 1)]);
    }
    refused(&mut world, &multicast(0, 1), Refusal::Full);
}

#[test]
fn run_7_nothing_to_settle() {
    assert_eq!(fresh(&[0, 1]).settle(0), Settled { arrivals: 0, done: true });
}

#[test]
fn run_8_crash_twice() {
    let mut world = fresh(&[0]);
    take(&mut world, &[crash(0)]);
    refused(&mut world, &crash(0), Refusal::Down);
}

/// Process 0 multicasts to process 1 and crashes: its letter still comes, and nothing more is to come.
#[test]
fn request_4_the_dead_senders_last_letter() {
    let mut world = fresh(&[0, 1, 2]);
    take(&mut world, &[multicast(0, 2), crash(0)]);
    let mut expected = world.clone();
    assert_eq!(world.settle(33_792), Settled { arrivals: 2, done: true });
    take(&mut expected, &[arrival(0, 0, 0, 1), arrival(2, 0, 1, 1)]);
    assert_eq!(world, expected);
    assert_eq!(logs(&world, 1), (&[0][..], &[0][..]));
    assert!(world.flight.is_empty());
}

#[test]
fn request_4_a_letter_already_lost_is_gone() {
    let mut world = fresh(&[0, 1, 2]);
    take(&mut world, &[multicast(0, 2), crash(0), loss(0, 0, 0, 1)]);
    assert_eq!(world.settle(33_792), Settled { arrivals: 0, done: true });
    assert_eq!(logs(&world, 1), (&[][..], &[][..]));
}

#[test]
fn replay_counts_records_after_the_setup() {
    let replayed = replay(&journal_of(&[setup(&[0]), [9; 8], crash(0), crash(0)])).unwrap();
    assert_eq!((replayed.steps, replayed.refused), (3, 2));
}

#[test]
fn full_settle_of_16_processes() {
    let mut world = fresh(&[0, 0, 1, 1, 2, 2, 3, 3, 4, 4, 5, 5, 6, 6, 7, 7]);
    for message in 0..64 {
        take(&mut world, &[multicast(message % 16, 0xFF)]);
    }
    assert_eq!(world.clone().settle(17_407), Settled { arrivals: 17_407, done: false });
    assert_eq!(world.clone().settle(17_408), Settled { arrivals: 17_408, done: true });
    let settled = world.settle(u32::MAX);
    assert!(settled.done && settled.arrivals <= 33_792);
    assert!(world.processes.iter().all(|process| process.causal_log.len() == 64));
}
