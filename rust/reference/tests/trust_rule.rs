//! The trust rule, kept and broken, and what each settle then leaves.

mod support;

use reference::random::Random;
use reference::record::{crash, multicast, setup, trust, Record};
use reference::sample::{self, STORM};
use reference::settle::Settled;
use reference::world::World;
use support::history::History;
use support::{agreed, each_settle, logs, stored};

const NOTHING_MOVES: Settled = Settled { arrivals: 0, done: true };

/// The world that the records lead to, and whether the trust rule held for them.
fn run(records: &[Record]) -> (World, bool) {
    let mut world = World::fresh(&records[0]).unwrap();
    let mut history = History::of_fresh(&world);
    history.steps(&mut world, &records[1..]);
    let kept = history.trust_rule(&world);
    (world, kept)
}

#[test]
fn kept_a_message_that_one_process_delivered_is_at_every_live_addressee() {
    let (world, kept) = run(&stored("trust-kept"));
    assert!(kept);
    assert!(!world.processes[1].up && world.processes[2].up);
    assert_eq!(logs(&world, 1).0, [0]);
    each_settle(&world, |settled, world| {
        assert_eq!(settled, NOTHING_MOVES);
        assert!(agreed(world));
        assert_eq!(logs(world, 2).0, [0]);
    });
}

/// As long as process 1 trusts 2, it waits for the OK of 2, which then holds the message.
#[test]
fn kept_nothing_is_delivered_without_the_trusted_one() {
    let records = stored("trust-kept");
    let ok_of_2 = records.iter().position(|&record| record == support::arrival(2, 0, 2, 1)).unwrap();
    let (before, _) = run(&records[..ok_of_2]);
    assert_eq!(logs(&before, 1).0, []);
    assert!(before.processes[2].held[0]);
    let (after, _) = run(&records[..=ok_of_2]);
    assert_eq!(logs(&after, 1).0, [0]);
}

#[test]
fn broken_a_message_that_one_process_delivered_is_lost_to_another() {
    let records = stored("trust-broken");
    let (world, kept) = run(&records);
    assert!(!kept);
    assert!(!world.processes[1].up && world.processes[2].up);
    each_settle(&world, |settled, world| {
        assert_eq!(settled, NOTHING_MOVES);
        assert!(!agreed(world));
        assert_eq!(logs(world, 1).0, [0]);
        assert_eq!(logs(world, 2).0, []);
    });
}

/// The one set that breaks the rule is that of process 1, which does not name 2.
#[test]
fn broken_by_one_set() {
    let mut records = stored("trust-broken");
    let only_itself = records.iter().position(|&record| record == trust(1, 0b010)).unwrap();
    records[only_itself] = trust(1, 0b110);
    let (world, kept) = run(&records);
    assert!(kept);
    each_settle(&world, |settled, world| {
        assert_eq!(settled, NOTHING_MOVES);
        assert!(agreed(world) && world.processes.iter().all(|process| process.fifo_log.is_empty()));
    });
}

/// Known run 4: the message of the crashed process is lost, and the rule asks for no more.
#[test]
fn kept_a_message_may_be_in_no_log() {
    let mut records = stored("known-4");
    assert!(!run(&records).1, "processes 1 and 2 still trust 0, which is down");
    records.extend([trust(1, 0b110), trust(2, 0b110)]);
    let (world, kept) = run(&records);
    assert!(kept);
    each_settle(&world, |settled, world| {
        assert_eq!(settled, NOTHING_MOVES);
        assert!(agreed(world));
        for process in &world.processes {
            assert!(!process.fifo_log.contains(&0) && !process.causal_log.contains(&0));
        }
    });
}

/// Process 0 crashes, and its letter to 2 is lost. The one to 1 still comes, and 1 tells 2.
#[test]
fn kept_the_last_letter_of_a_crashed_process_brings_its_message_to_every_live_addressee() {
    let lost = support::loss(0, 0, 0, 2);
    let trusts = [trust(1, 0b110), trust(2, 0b110)];
    let records = [setup(&[0, 1, 1]), multicast(0, 0b10), crash(0), lost, trusts[0], trusts[1]];
    let (world, kept) = run(&records);
    assert!(kept);
    each_settle(&world, |settled, world| {
        assert!(settled.done && world.flight.is_empty());
        assert_eq!((logs(world, 1).0, logs(world, 2).0), (&[0][..], &[0][..]));
    });
}

/// Process 2 of group 1 is down, and 0 multicasts to that group. This is process 1's trust set at the end.
fn one_of_two_down(trusted_by_1: u16) -> Vec<Record> {
    vec![setup(&[0, 1, 1]), crash(2), trust(0, 0b011), multicast(0, 0b10), trust(1, trusted_by_1)]
}

#[test]
fn broken_who_trusts_a_crashed_process_waits_for_ever() {
    let (world, kept) = run(&one_of_two_down(0b111));
    assert!(!kept);
    each_settle(&world, |settled, world| {
        assert!(settled.done && !agreed(world));
        assert!(world.processes[0].up && world.processes[1].held[0]);
        assert_eq!(logs(world, 1).0, []);
    });
}

#[test]
fn kept_who_trusts_only_live_processes_delivers() {
    let (world, kept) = run(&one_of_two_down(0b011));
    assert!(kept);
    each_settle(&world, |settled, world| {
        assert!(settled.done && agreed(world));
        assert_eq!(logs(world, 1).0, [0]);
    });
}

/// After a crash each process that is up trusts just those that are up.
fn trust_who_is_up(world: &mut World, history: &mut History) {
    let up: Vec<usize> = (0..world.processes.len()).filter(|&p| world.processes[p].up).collect();
    let all = up.iter().fold(0, |mask, p| mask | 1 << p);
    for p in up {
        history.step(world, &trust(p, all));
    }
}

#[test]
fn kept_by_a_trust_step_at_each_process_after_each_crash() {
    let mut crashes = 0;
    for run in 0..300 {
        let random = &mut Random::new(35, run);
        let mut world = World::fresh(&sample::setup(random, 6)).unwrap();
        let mut history = History::of_fresh(&world);
        for _ in 0..200 {
            let step = sample::step(random, &world, &STORM);
            let before = world.processes.iter().filter(|process| process.up).count();
            if step.first() != Some(&4) {
                history.step(&mut world, &step);
            }
            let up = world.processes.iter().filter(|process| process.up).count();
            if up < before {
                crashes += 1;
                trust_who_is_up(&mut world, &mut history);
            }
        }
        assert!(history.trust_rule(&world), "run {run}");
        each_settle(&world, |settled, world| assert!(settled.done && agreed(world), "run {run}"));
    }
    assert!(crashes > 300, "{crashes} crashes");
}
