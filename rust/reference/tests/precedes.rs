//! Document 02, card 6: which of two messages came first, for many pairs.

mod support;

use reference::calls;
use reference::precedes::PAIRS;
use reference::random::Random;
use reference::record::multicast;
use reference::sample::{self, CALM, FLOOD, RACE, STORM, WRONG};
use reference::sound;
use reference::words::{encode, WORDS};
use reference::world::World;
use reference::Refusal;
use support::history::History;
use support::{arrival, fresh, take, BUDGET, SETTLES};

/// Known run 3 until the call, message 2, is multicast: the recipe, 0, precedes the release, 1, and both the call.
fn called() -> World {
    let mut world = fresh(&[0, 1, 2]);
    take(&mut world, &[multicast(0, 4), multicast(0, 2), arrival(0, 1, 0, 1), arrival(2, 1, 1, 1)]);
    take(&mut world, &[multicast(1, 4)]);
    world
}

/// What the call answers and leaves in the bytes, which are 7 before.
fn ask(words: &[u16], pairs: &[u16], length: usize) -> (Result<u32, Refusal>, Vec<u8>) {
    let mut answers = vec![7; length];
    (calls::precedes(words, pairs, &mut answers), answers)
}

/// The call is refused, and leaves the bytes as they were.
fn refused(words: &[u16], pairs: &[u16], length: usize, refusal: Refusal) {
    let what = format!("{} words, {length} bytes, {:?}", pairs.len(), pairs.last());
    assert_eq!(ask(words, pairs, length), (Err(refusal), vec![7; length]), "{what}");
}

#[test]
fn in_known_run_3_the_recipe_precedes_the_call() {
    let words = encode(&called());
    let pairs = [0, 1, 0, 2, 1, 2, 1, 0, 2, 0, 2, 1, 0, 0, 1, 1, 2, 2];
    assert_eq!(ask(&words, &pairs, 9), (Ok(3), vec![1, 1, 1, 0, 0, 0, 0, 0, 0]));
}

#[test]
fn what_did_not_lead_to_it_does_not_precede_it() {
    let mut world = called();
    take(&mut world, &[multicast(2, 1), multicast(1, 4)]);
    let words = encode(&world);
    let pairs = [0, 3, 3, 0, 2, 3, 3, 2, 3, 4, 2, 4, 0, 4];
    assert_eq!(ask(&words, &pairs, 7), (Ok(4), vec![0, 0, 0, 0, 0, 1, 1]));
}

#[test]
fn each_message_in_the_pairs_is_counted_once() {
    let words = encode(&called());
    let cases: [(&[u16], u32); 6] = [
        (&[0, 0], 1),
        (&[2, 2, 2, 2], 1),
        (&[0, 2], 2),
        (&[2, 0, 0, 2], 2),
        (&[0, 1, 0, 2, 0, 1], 3),
        (&[1, 0, 2, 0], 3),
    ];
    for (pairs, different) in cases {
        assert_eq!(ask(&words, pairs, pairs.len() / 2).0, Ok(different), "{pairs:?}");
    }
}

#[test]
fn no_pairs_are_taken_also_where_there_is_no_message() {
    for world in [called(), fresh(&[0])] {
        assert_eq!(ask(&encode(&world), &[], 0), (Ok(0), vec![]));
        refused(&encode(&world), &[], 1, Refusal::PairsLength);
    }
    refused(&encode(&fresh(&[0])), &[0, 0], 1, Refusal::NoMessage);
}

#[test]
fn up_to_256_pairs_are_taken() {
    let words = encode(&called());
    let pairs = |number: usize| [0, 2].repeat(number);
    assert_eq!(PAIRS, 256);
    for number in [1, 2, 255, 256] {
        assert_eq!(ask(&words, &pairs(number), number), (Ok(2), vec![1; number]));
    }
    for number in [257, 258, 512, 32_768, 65_536] {
        refused(&words, &pairs(number), number, Refusal::PairsLength);
        refused(&words, &pairs(number), number % 256, Refusal::PairsLength);
    }
}

#[test]
fn an_odd_length_and_other_answers_get_19() {
    let words = encode(&called());
    let pairs = [0, 2].repeat(257);
    for odd in [1, 3, 255, 511, 513] {
        for length in [0, odd / 2, odd / 2 + 1] {
            refused(&words, &pairs[..odd], length, Refusal::PairsLength);
        }
    }
    for number in [1, 2, 128, 256] {
        for length in [0, number - 1, number + 1, 2 * number] {
            refused(&words, &pairs[..2 * number], length, Refusal::PairsLength);
        }
    }
    assert_eq!(Refusal::PairsLength.number(), 19);
}

/// Each word but the absent one names a message, and all bytes stay as they were, those of earlier pairs too.
#[test]
fn a_pair_naming_no_message_gets_7_wherever_it_is() {
    let words = encode(&called());
    for absent in [3, 4, 63, 64, 255, 256, 257, 32_768, 65_535] {
        for at in [0, 1, 2, 3, 510, 511] {
            let mut pairs = [0, 2].repeat(256);
            pairs[at] = absent;
            refused(&words, &pairs, 256, Refusal::NoMessage);
            refused(&words, &pairs[at / 2 * 2..][..2], 1, Refusal::NoMessage);
        }
    }
    assert_eq!(Refusal::NoMessage.number(), 7);
}

#[test]
fn the_call_refuses_1_then_2_then_19_then_7() {
    let mut words = encode(&called());
    let [good, wrong] = [&[0, 1][..], &[0, 3][..]];
    refused(&words, wrong, 1, Refusal::NoMessage);
    for (pairs, length) in [(wrong, 0), (wrong, 2), (&wrong[1..], 0), (&wrong[1..], 1)] {
        refused(&words, pairs, length, Refusal::PairsLength);
    }
    words[0] = 17;
    for (pairs, length) in [(good, 1), (wrong, 1), (good, 0), (wrong, 2), (&good[1..], 0), (&[], 0)] {
        refused(&words, pairs, length, Refusal::NotSound);
        for short in [&words[1..], &[]] {
            refused(short, pairs, length, Refusal::WorldLength);
        }
    }
    refused(&vec![0; WORDS + 1], good, 1, Refusal::WorldLength);
}

/// Message 0, of process 0, is to groups 1, 2 and 3; message 1, of process 1, to groups 0 and 2. C[g][0] of both is 1 for
/// each g, and so is s[g] of message 0; all other counters and numbers are 0. No steps lead there.
fn made() -> World {
    let mut world = fresh(&[0, 1, 2, 3]);
    take(&mut world, &[multicast(0, 14), multicast(1, 5)]);
    for message in &mut world.messages {
        message.counters = Default::default();
        message.counters[..4].iter_mut().for_each(|row| row[0] = 1);
        message.sequence_numbers = Default::default();
    }
    world.messages[0].sequence_numbers[..4].fill(1);
    world
}

/// Whether message 0 precedes message 1 in that world with some words changed, which leave it sound.
fn precedes_with(change: impl Fn(&mut World)) -> bool {
    let mut world = made();
    change(&mut world);
    let words = encode(&world);
    assert_eq!(sound::read(&words), Ok(world));
    let (answer, bytes) = ask(&words, &[0, 1], 1);
    assert_eq!(answer, Ok(2));
    bytes == [1]
}

/// The same with these counters: each a message, a group, a process and C[group][process].
fn precedes_by(counters: &[(usize, usize, usize, u16)]) -> bool {
    precedes_with(|world| {
        for &(message, group, process, counter) in counters {
            world.messages[message].counters[group][process] = counter;
        }
    })
}

#[test]
fn the_counter_of_the_first_is_at_most_that_of_the_second() {
    for (first, second) in [(0, 0), (1, 1), (2, 2), (0, 1), (1, 2), (0, 2)] {
        assert!(precedes_by(&[(0, 1, 0, first), (1, 1, 0, second)]), "{first} and {second}");
        let less = first < second;
        assert_eq!(precedes_by(&[(0, 1, 0, second), (1, 1, 0, first)]), !less, "{second} and {first}");
    }
}

/// Group 1 decides, the lowest of the first. Group 3 is its highest, 2 is to both, 0 is the lowest of the second: each
/// says the other, and so do all groups of the first and any of them.
#[test]
fn no_group_but_the_lowest_of_the_first_plays_a_part() {
    for other in [0, 2, 3] {
        assert!(precedes_by(&[(1, other, 0, 0)]), "1 though group {other} says 0");
    }
    assert!(!precedes_by(&[(1, 1, 0, 0)]), "0 though groups 0, 2 and 3 say 1");
    assert!(!precedes_by(&[(0, 1, 0, 2)]), "the same by the counter of the first");
}

#[test]
fn no_process_but_the_sender_of_the_first_plays_a_part() {
    for other in [1, 2, 3] {
        assert!(precedes_by(&[(0, 1, other, 1)]), "1 though the entry of process {other} says 0");
        assert!(!precedes_by(&[(1, 1, 0, 0), (1, 1, other, 1)]), "0 though that of process {other} says 1");
    }
}

#[test]
fn sequence_numbers_play_no_part() {
    for message in [0, 1] {
        for number in [0, 1, 2] {
            let numbered = |world: &mut World| world.messages[message].sequence_numbers[..4].fill(number);
            assert!(precedes_with(numbered), "s {number} of message {message}");
            let behind = |world: &mut World| {
                numbered(world);
                world.messages[1].counters[1][0] = 0;
            };
            assert!(!precedes_with(behind), "s {number} of message {message}");
        }
    }
}

/// Also where every counter of it is 0.
#[test]
fn a_message_never_precedes_itself() {
    let mut world = made();
    world.messages[1].counters = Default::default();
    assert_eq!(ask(&encode(&world), &[0, 0, 1, 1], 2), (Ok(2), vec![0, 0]));
}

/// The answers to all pairs of messages, in calls of up to 256 pairs: a row for each first message.
fn all_answers(world: &World) -> Vec<Vec<u8>> {
    let messages = 0..world.messages.len() as u16;
    let pairs: Vec<u16> = messages.clone().flat_map(|x| messages.clone().flat_map(move |m| [x, m])).collect();
    let mut answers = vec![7; pairs.len() / 2];
    for (pairs, answers) in pairs.chunks(2 * PAIRS).zip(answers.chunks_mut(PAIRS)) {
        world.precedes(pairs, answers).unwrap();
    }
    answers.chunks(world.messages.len().max(1)).map(<[u8]>::to_vec).collect()
}

/// The word of C[g][q] of a message, by the layout.
fn counter_place(message: usize, group: usize, process: usize) -> usize {
    6_867 + 187 * message + 2 + 16 * group + process
}

#[test]
fn the_answer_in_any_sound_world_is_that_of_two_words() {
    let mut seen = [0; 2];
    for run in 0..2_000 {
        let random = &mut Random::new(47, run);
        let world = sample::sound_world(random, if run % 4 == 0 { 16 } else { 4 });
        let words = encode(&world);
        for (x, row) in all_answers(&world).iter().enumerate() {
            let block = counter_place(x, 0, 0) - 2;
            let (q, g) = (usize::from(words[block]), words[block + 1].trailing_zeros() as usize);
            for (m, &answer) in row.iter().enumerate() {
                let [first, second] = [x, m].map(|message| words[counter_place(message, g, q)]);
                let expected = x != m && first <= second;
                assert_eq!(answer, u8::from(expected), "run {run}, {x} and {m}");
                seen[usize::from(answer)] += 1;
            }
        }
    }
    assert!(seen.iter().all(|&times| times > 10_000), "{seen:?}");
}

/// What the answers would be by the other groups of the first, and by its sequence numbers.
fn others(world: &World, x: usize, m: usize) -> Vec<bool> {
    let (first, second) = (&world.messages[x], &world.messages[m]);
    let groups = (0..world.groups()).filter(|&g| first.groups[g]);
    let own = |g: usize| [first.counters[g][first.sender], first.sequence_numbers[g]];
    groups.flat_map(|g| own(g).map(|own| x != m && own <= second.counters[g][first.sender])).collect()
}

/// The answers are precedence by events, and a strict partial order; there all groups of the first say the same.
#[test]
fn where_steps_led_the_answers_are_precedence_by_events() {
    let mut seen = [0; 2];
    for run in 0..10_000 {
        let random = &mut Random::new(48, run);
        let most = if run % 8 == 0 { 16 } else { 6 };
        let mut world = World::fresh(&sample::setup(random, most)).unwrap();
        let mut history = History::of_fresh(&world);
        let weights = random.pick(&[CALM, RACE, STORM, FLOOD, WRONG]);
        for _ in 0..random.below(400) {
            let step = sample::step(random, &world, &weights);
            history.step(&mut world, &step);
            if random.one_in(100) {
                random.pick(&SETTLES)(&mut world, random.pick(&[1, 20, BUDGET]));
                history.note_deliveries(&world);
            }
        }
        let (precedence, answers) = (history.precedence(), all_answers(&world));
        for (x, row) in answers.iter().enumerate() {
            for (m, &answer) in row.iter().enumerate() {
                assert_eq!(answer, u8::from(precedence.precedes(x, m)), "run {run}, {x} and {m}");
                assert!(others(&world, x, m).iter().all(|&other| u8::from(other) == answer), "run {run}");
                seen[usize::from(answer)] += 1;
            }
        }
        assert_order(&answers);
    }
    assert!(seen.iter().all(|&times| times > 300_000), "{seen:?}");
}

/// No message is before itself, and what is behind one that is behind it is behind it.
fn assert_order(answers: &[Vec<u8>]) {
    let behind: Vec<u64> =
        answers.iter().map(|row| (0..row.len()).map(|m| u64::from(row[m]) << m).sum()).collect();
    for x in 0..behind.len() {
        assert_eq!(behind[x] >> x & 1, 0, "message {x} and itself");
        for y in (0..behind.len()).filter(|y| behind[x] >> y & 1 == 1) {
            assert_eq!(behind[y] & !behind[x], 0, "what is behind {y} is behind {x}");
        }
    }
}
