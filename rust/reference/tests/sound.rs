//! The words of a world, and when they are sound.

mod support;

use reference::calls;
use reference::random::Random;
use reference::record::{crash, multicast, setup};
use reference::sample::{self, CALM, FLOOD, RACE, STORM};
use reference::sound;
use reference::words::{encode, WORDS};
use reference::world::World;
use reference::Refusal;
use support::{arrival, fresh, take, SETTLES};

const FRESH: [u8; 8] = [0, 3, 0x88, 0, 0, 0, 0, 0];

/// The first word of a process's and of a message's block.
fn process(p: usize) -> usize {
    3 + p * 429
}

fn message(m: usize) -> usize {
    6_867 + m * 187
}

/// Processes 0, 1, 2 in groups 0, 1, 1; message 0 from 0 to group 1, delivered at 1; message 1 from 2 to both groups.
fn world() -> World {
    let mut world = fresh(&[0, 1, 1]);
    take(&mut world, &[multicast(0, 2), arrival(0, 0, 0, 1), arrival(0, 0, 0, 2)]);
    take(&mut world, &[arrival(2, 0, 1, 1), arrival(2, 0, 2, 1), multicast(2, 3)]);
    assert_eq!(world.processes[1].causal_log, [0]);
    world
}

#[test]
fn words_stand_where_the_layout_has_them() {
    let mut world = world();
    take(&mut world, &[crash(0)]);
    let words = encode(&world);
    assert_eq!(words[..3], [3, 2, 0]);
    assert_eq!(words[process(0)..][..2], [0, 0b111]);
    assert_eq!(words[process(1)..][..2], [1, 0b111]);
    assert_eq!(words[process(0) + 2 + 16], 1, "C[1][0] of process 0");
    assert_eq!(words[process(1) + 2 + 16], 1, "C[1][0] of process 1");
    assert_eq!(words[process(2) + 2 + 2], 1, "C[0][2] of process 2");
    assert_eq!(words[process(0) + 130 + 1], 1, "b[1] of process 0");
    assert_eq!(words[process(1) + 138..][..4], [2, 1, 1, 0], "next of process 1");
    assert_eq!(words[process(1) + 154..][..4], [1, 0, 0, 0], "del of process 1");
    assert_eq!((words[process(0) + 170], words[process(1) + 170]), (0, 1), "up");
    assert_eq!(words[process(1) + 171..][..4], [1, 1, 1, 0], "lengths of logs, held");
    assert_eq!(words[process(1) + 237], 0b110, "marks of message 0");
    assert_eq!(words[message(1)..][..2], [2, 3], "sender and groups");
    assert_eq!(words[message(1) + 2 + 16 + 2], 1, "C[1][2] of message 1");
    assert_eq!(words[message(1) + 130..][..3], [1, 1, 0], "s of message 1");
    assert_eq!(words[message(1) + 138 + 2], 0b111, "first letters of message 1");
    assert_eq!(words[message(0) + 138 + 2 * 16 + 1..][..2], [0b100, 0b100], "OKs of message 0");
}

#[test]
fn logs_stand_where_the_layout_has_them() {
    let mut world = fresh(&[0, 1, 2]);
    take(
        &mut world,
        &[multicast(0, 4), multicast(0, 2), arrival(0, 1, 0, 1), arrival(2, 1, 1, 1), multicast(1, 4)],
    );
    take(&mut world, &[arrival(0, 2, 1, 2), arrival(2, 2, 2, 2), arrival(0, 0, 0, 2), arrival(2, 0, 2, 2)]);
    let words = encode(&world);
    assert_eq!(words[process(2) + 171..][..2], [2, 2]);
    assert_eq!(words[process(2) + 301..][..3], [2, 0, 0]);
    assert_eq!(words[process(2) + 365..][..3], [0, 2, 0]);
    assert_eq!(calls::log(&words, 2, false), Ok(&[2, 0][..]));
    assert_eq!(calls::log(&words, 2, true), Ok(&[0, 2][..]));
    assert_eq!(calls::log(&words, 0, true), Ok(&[][..]));
    assert_eq!(calls::log(&words, 3, true), Err(Refusal::NoProcess));
}

/// The words of `world()` with some changed.
fn changed(changes: &[(usize, u16)]) -> bool {
    let mut words = encode(&world());
    for &(at, word) in changes {
        assert_ne!(words[at], word, "word {at}");
        words[at] = word;
    }
    sound::read(&words).is_ok()
}

#[test]
fn limits() {
    assert!(!changed(&[(0, 0)]) && !changed(&[(0, 17)]) && !changed(&[(0, 2)]) && !changed(&[(0, 4)]), "n");
    assert!(!changed(&[(1, 1)]) && !changed(&[(1, 65)]) && !changed(&[(1, 3)]), "count");
    assert!(!changed(&[(process(1), 2)]) && !changed(&[(process(2), 8)]), "group");
    assert!(!changed(&[(process(0), 1)]), "no group 0");
    let mut words = encode(&fresh(&[0, 1, 1]));
    words[process(2)] = 2;
    assert!(sound::read(&words).is_ok());
    words[process(1)] = 2;
    assert!(sound::read(&words).is_err(), "no group 1");
}

#[test]
fn unused_words() {
    for at in
        [2, process(3), process(15) + 428, message(2), message(63) + 185, message(63) + 186, 18_835, 20_479]
    {
        assert!(!changed(&[(at, 1)]), "word {at}");
    }
    for at in
        [2 + 2 * 16, 2 + 3, 2 + 7 * 16 + 15, 130 + 2, 138 + 3, 154 + 3, 173 + 2, 237 + 2, 301 + 1, 365 + 1]
    {
        assert!(!changed(&[(process(1) + at, 1)]), "word {at} of a process");
    }
    for at in [2 + 2 * 16, 2 + 3, 130 + 2, 138 + 3, 138 + 16 + 3, 138 + 47] {
        assert!(!changed(&[(message(0) + at, 1)]), "word {at} of a message");
    }
}

#[test]
fn messages() {
    assert!(!changed(&[(message(1), 3)]), "absent sender");
    assert!(!changed(&[(message(1) + 1, 4)]) && !changed(&[(message(1) + 1, 0x103)]), "absent group");
    assert!(!changed(&[(message(1) + 1, 0), (message(1) + 138 + 2, 0)]), "no group");
    assert!(changed(&[(message(1) + 1, 1), (message(1) + 138 + 2, 1)]), "another group");
}

#[test]
fn numbers_at_most_count() {
    for at in [process(0) + 2, process(0) + 130, process(0) + 154 + 2, message(0) + 2, message(0) + 130] {
        assert!(changed(&[(at, 2)]) && !changed(&[(at, 3)]) && !changed(&[(at, 65_535)]), "word {at}");
    }
}

#[test]
fn flags_and_trust() {
    assert!(changed(&[(process(1) + 170, 0)]) && !changed(&[(process(1) + 170, 2)]), "up");
    assert!(changed(&[(process(1) + 173, 0)]) && !changed(&[(process(1) + 173, 2)]), "held");
    assert!(changed(&[(process(1) + 1, 0)]) && !changed(&[(process(1) + 1, 8)]), "trust");
}

#[test]
fn letters_held_and_marks() {
    assert!(!changed(&[(message(0) + 138, 1)]), "a first letter to no addressee");
    assert!(!changed(&[(message(0) + 138, 8)]), "a first letter to an absent process");
    assert!(!changed(&[(message(0) + 138 + 1, 2)]), "a first letter not from the sender");
    assert!(changed(&[(message(0) + 138, 2)]), "a first letter once more");
    assert!(!changed(&[(message(0) + 138 + 16, 2)]), "a relay not from an addressee");
    assert!(changed(&[(message(0) + 138 + 17, 6)]), "a relay from an addressee");
    assert!(!changed(&[(message(0) + 138 + 32, 2)]), "an OK not from an addressee");
    assert!(!changed(&[(process(0) + 173, 1)]), "held by no addressee");
    assert!(!changed(&[(process(0) + 237, 2)]), "marks at no addressee");
    assert!(!changed(&[(process(1) + 237, 7)]), "a mark of no addressee");
    assert!(!changed(&[(process(1) + 237, 14)]), "a mark of an absent process");
    assert!(changed(&[(process(1) + 237, 0)]) && changed(&[(process(2) + 237, 4)]), "other marks");
}

#[test]
fn logs_and_next() {
    let (fifo, causal, next) = (process(1) + 301, process(1) + 365, process(1) + 138);
    let lengths = (process(1) + 171, process(1) + 172);
    assert!(!changed(&[(next, 1)]) && !changed(&[(next + 1, 2)]) && !changed(&[(next, 0)]), "next");
    assert!(changed(&[(lengths.1, 0)]), "nothing in the causal log");
    assert!(!changed(&[(lengths.0, 0), (next, 1)]), "causal but not FIFO");
    assert!(changed(&[(lengths.0, 0), (lengths.1, 0), (next, 1)]), "nothing in both");
    assert!(!changed(&[(lengths.0, 65)]) && !changed(&[(lengths.1, 65_535)]), "too long");
    assert!(!changed(&[(lengths.0, 2), (next, 3)]), "twice in the FIFO log");
    assert!(!changed(&[(lengths.1, 2)]), "twice in the causal log");
    assert!(changed(&[(lengths.0, 2), (fifo + 1, 1), (next + 2, 2)]), "another message in the FIFO log");
    assert!(!changed(&[(lengths.0, 2), (fifo + 1, 2)]), "no message in the FIFO log");
    assert!(!changed(&[(causal, 1)]), "another in the causal log");
    let other = (process(0) + 171, process(0) + 138);
    assert!(!changed(&[(other.0, 1), (other.1, 2)]), "not addressed to it");
}

#[test]
fn refusals_1_2_3_and_5() {
    let mut short = vec![7; WORDS - 1];
    let mut long = vec![7; WORDS + 1];
    for words in [&mut short[..], &mut long[..], &mut []] {
        let before = words.to_vec();
        assert_eq!(calls::make(words, &[]), Err(Refusal::WorldLength));
        assert_eq!(calls::step(words, &[]), Err(Refusal::WorldLength));
        assert_eq!(calls::settle(words, 0), Err(Refusal::WorldLength));
        assert_eq!(calls::settle_fair(words, 0), Err(Refusal::WorldLength));
        assert_eq!(calls::log(words, 99, true), Err(Refusal::WorldLength));
        assert_eq!(calls::replay(words, &[]), Err(Refusal::WorldLength));
        assert_eq!(words, before);
    }
    let mut words = vec![7; WORDS];
    assert_eq!(calls::step(&mut words, &[]), Err(Refusal::NotSound));
    assert_eq!(calls::settle(&mut words, 0), Err(Refusal::NotSound));
    assert_eq!(calls::settle_fair(&mut words, 0), Err(Refusal::NotSound));
    assert_eq!(calls::log(&words, 99, true), Err(Refusal::NotSound));
    assert_eq!(calls::make(&mut words, &[0; 8]), Err(Refusal::Setup));
    assert_eq!(calls::replay(&mut words, &[]), Err(Refusal::JournalLength));
    assert!(words.iter().all(|&word| word == 7));
    assert_eq!(calls::make(&mut words, &FRESH), Ok(()));
    assert_eq!(calls::step(&mut words, &[]), Err(Refusal::Form));
    assert_eq!(words, encode(&World::fresh(&FRESH).unwrap()));
}

#[test]
fn replay_overwrites_any_words() {
    let records = [setup(&[0]), multicast(0, 1), multicast(0, 2), arrival(0, 0, 0, 0)];
    let journal = support::journal_of(&records);
    let mut words = vec![9; WORDS];
    assert_eq!(calls::replay(&mut words, &journal), Ok((3, 1)));
    let mut world = fresh(&[0]);
    take(&mut world, &[records[1], records[3]]);
    assert_eq!(words, encode(&world));
}

/// Every accepted step and every settle of a sound world gives a sound world, and the words of it are read back.
#[test]
fn steps_keep_worlds_sound() {
    for run in 0..400 {
        let random = &mut Random::new(41, run);
        let mut world = if run % 2 == 0 {
            World::fresh(&sample::setup(random, 16)).unwrap()
        } else {
            sample::sound_world(random, 16)
        };
        let weights = random.pick(&[CALM, RACE, STORM, FLOOD]);
        for _ in 0..40 {
            assert_eq!(sound::read(&encode(&world)).as_ref(), Ok(&world), "run {run}");
            let step = sample::step(random, &world, &weights);
            let _ = world.step(&step);
        }
        for settle in SETTLES {
            let mut world = world.clone();
            settle(&mut world, random.below(100) as u32);
            assert_eq!(sound::read(&encode(&world)), Ok(world), "run {run}");
        }
    }
}

/// A step on words is the step on the world.
#[test]
fn calls_are_steps_on_words() {
    for run in 0..200 {
        let random = &mut Random::new(42, run);
        let mut world = sample::sound_world(random, 8);
        let mut words = encode(&world);
        for _ in 0..10 {
            let step = sample::step(random, &world, &CALM);
            assert_eq!(calls::step(&mut words, &step), world.step(&step));
            assert_eq!(words, encode(&world));
        }
        let budget = random.below(200) as u32;
        assert_eq!(calls::settle(&mut words, budget), Ok(world.settle(budget)));
        assert_eq!(words, encode(&world));
        assert_eq!(calls::settle_fair(&mut words, budget), Ok(world.settle_fair(budget)));
        assert_eq!(words, encode(&world));
    }
}
