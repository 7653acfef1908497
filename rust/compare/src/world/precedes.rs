//! Which of two messages came first, for many pairs: in worlds that steps reached, and in worlds that are only sound, with
//! counters about one number, where a wrong answer can be told from the right one.

use super::calls::{self, Compared};
use super::inputs::{self, Asked, Start};
use crate::difference::Difference;
use crate::lent::Lent;
use crate::tally::{self, Tally};
use reference::precedes::PAIRS;
use reference::random::Random;
use reference::sample;
use reference::words::encode;
use reference::world::{Message, World, GROUPS, MESSAGES, PROCESSES};
use reference::Refusal;

pub const ANSWERS: &[(&str, &[u32])] = &[
    ("precedes", &[0, 1, 2, 7, 19]),
    ("precedes, a message in several pairs", &[0]),
    ("precedes, an odd length", &[19]),
    ("precedes, too many pairs", &[19]),
    ("precedes, too few answers", &[19]),
    ("precedes, too many answers", &[19]),
    ("precedes, a wrong length and no such message", &[19]),
    ("precedes, no such message behind good pairs", &[7]),
];
/// The bytes, 0 and 1 or one of these, that are told from another way to answer; and what was asked.
pub const COVER: &[(&str, usize)] = &[
    ("the highest group of the first says otherwise", 2),
    ("all groups of the first say otherwise", 1),
    ("some group of the first says otherwise", 1),
    ("a group of both says otherwise", 2),
    ("the lowest group of the second says otherwise", 2),
    ("the entry of the second's sender says otherwise", 2),
    ("s of the first says otherwise", 2),
    ("s of the second says otherwise", 2),
    ("s of both says otherwise", 2),
    ("less than says otherwise", 1),
    ("the other way round says otherwise", 2),
    ("the order of their numbers says otherwise", 2),
    ("no group of both", 2),
    ("a message and itself", 1),
    ("where steps led", 2),
    ("number of pairs", PAIRS + 1),
    ("different messages", MESSAGES + 1),
    ("first message", MESSAGES),
    ("second message", MESSAGES),
    ("sender of the first", PROCESSES),
    ("lowest group of the first", GROUPS),
    ("word that names no message", ABSENT),
    ("word of a pair that names no message", 2),
    // 0, 7 and 19.
    ("answer of the world where the words have another length", 3),
    ("answer of the world where the words are not sound", 3),
];

/// The calls of one input that are not refused, if the world has a message.
const CALLS: usize = 4;

pub fn input(index: u64, random: &mut Random, tally: &mut Tally) -> Compared {
    let (kind, world) = match index % 2 {
        0 => ("precedes, where steps led", inputs::world(random, &[Start::Fresh])),
        _ => ("precedes, counters about one number", about_one_number(random)),
    };
    tally.input(kind);
    let words = Lent::holding(random, &encode(&world));
    for _ in 0..CALLS {
        let number = any_number(random);
        let pairs = named(random, &world, 2 * number);
        if let Ok(answers) = ask(&world, &words, &pairs, number, random, tally)? {
            for (pair, byte) in pairs.chunks(2).zip(answers) {
                note(&Pair::new(&world, pair), byte, index % 2 == 0, tally)?;
            }
        }
    }
    wrong_length(&world, &words, random, tally)?;
    wrong_word(&world, &words, random, tally)?;
    wrong_words(&world, random, tally)
}

/// A sound world that no steps reach mostly: each counter is about the same number in all messages, and the sequence
/// numbers of a message are about its counters.
fn about_one_number(random: &mut Random) -> World {
    let n = if random.one_in(2) { PROCESSES } else { random.between(1, PROCESSES) };
    let setup = sample::setup_of(random, n);
    let count = if random.one_in(2) { MESSAGES } else { random.between(1, MESSAGES) };
    let mut world = sample::sound_world_of(random, &setup, count);
    let about = |random: &mut Random, at: usize| (at + random.below(3)).saturating_sub(1).min(count);
    for group in 0..world.groups() {
        for process in 0..n {
            let at = random.between(0, count);
            for message in &mut world.messages {
                message.counters[group][process] = about(random, at) as u16;
            }
        }
        for message in &mut world.messages {
            let own = message.counters[group][message.sender];
            message.sequence_numbers[group] = about(random, own.into()) as u16;
        }
    }
    world
}

/// A number of pairs that is taken.
fn any_number(random: &mut Random) -> usize {
    match random.below(4) {
        0 => random.pick(&[0, 1, 2, PAIRS - 1, PAIRS]),
        _ => random.between(0, PAIRS),
    }
}

/// So many words that name messages of the world, if it has any: all of them, or some few.
fn named(random: &mut Random, world: &World, length: usize) -> Vec<u16> {
    let count = world.messages.len().max(1);
    let few = if random.one_in(2) { count } else { random.between(1, count) };
    let start = random.below(count);
    (0..length).map(|_| ((start + random.below(few)) % count) as u16).collect()
}

/// Asks both sides on the words of this world: the bytes of the second one, or its refusal.
fn ask(
    world: &World,
    words: &Lent<u16>,
    pairs: &[u16],
    length: usize,
    random: &mut Random,
    tally: &mut Tally,
) -> Result<Result<Vec<u8>, Refusal>, Difference> {
    let asked = Asked::new(random, pairs, length);
    let mut expected = asked.answers.clone();
    let right = world.precedes(pairs, expected.part_mut());
    calls::same_precedes(words, &asked, right, &expected, random, tally)?;
    Ok(right.map(|different| {
        tally.cover("number of pairs", length);
        tally.cover("different messages", different as usize);
        if (different as usize) < pairs.len() {
            tally.answer("precedes, a message in several pairs", 0);
        }
        expected.part().to_vec()
    }))
}

/// A length that is refused, for one of four causes; a word may name no message too.
fn wrong_length(world: &World, words: &Lent<u16>, random: &mut Random, tally: &mut Tally) -> Compared {
    let odd = 2 * random.below(PAIRS) + 1;
    let more = random.between(1, 1_000);
    let many = PAIRS + random.pick(&[1, 2, PAIRS, more]);
    let number = any_number(random);
    let few = number.saturating_sub(random.pick(&[1, 1, PAIRS]));
    let cases = [
        ("precedes, an odd length", odd, odd / 2 + random.below(2)),
        ("precedes, too many pairs", 2 * many, many),
        ("precedes, too few answers", 2 * number.max(1), few),
        ("precedes, too many answers", 2 * number, number + random.pick(&[1, number.max(1), PAIRS])),
    ];
    let (cause, length, answers) = random.pick(&cases);
    let mut pairs = named(random, world, length);
    if random.one_in(2) && put_absent(random, world, &mut pairs, tally).is_some() {
        tally.answer("precedes, a wrong length and no such message", 19);
    }
    match ask(world, words, &pairs, answers, random, tally)? {
        Err(Refusal::PairsLength) => tally.answer(cause, 19),
        other => return Err(Difference(format!("both sides, {cause}: {other:?}"))),
    }
    Ok(())
}

/// The kinds of words that name no message.
const ABSENT: usize = 6;

/// Puts a word that names no message at some place of the pairs, the first and the last among these: which.
fn put_absent(random: &mut Random, world: &World, pairs: &mut [u16], tally: &mut Tally) -> Option<usize> {
    let last = pairs.len().checked_sub(1)?;
    let count = world.messages.len();
    let message = random.below(count.max(1));
    let kind = random.below(ABSENT);
    let between = random.between(0, last);
    let at = random.pick(&[0, last, between, between]);
    // The next message, the first beyond all, the highest word; and messages with bits above.
    pairs[at] = [count, MESSAGES, 65_535, MESSAGES + message, 256 + message, 32_768 + message][kind] as u16;
    tally.cover("word that names no message", kind);
    tally.cover("word of a pair that names no message", at % 2);
    Some(at)
}

/// One word that names no message, among good pairs: their answers are not written either.
fn wrong_word(world: &World, words: &Lent<u16>, random: &mut Random, tally: &mut Tally) -> Compared {
    let number = any_number(random).max(1);
    let mut pairs = named(random, world, 2 * number);
    let at = put_absent(random, world, &mut pairs, tally).expect("a pair");
    match ask(world, words, &pairs, number, random, tally)? {
        Err(Refusal::NoMessage) if at > 1 && !world.messages.is_empty() => {
            tally.answer("precedes, no such message behind good pairs", 7);
        }
        Err(Refusal::NoMessage) => {}
        other => return Err(Difference(format!("both sides, no such message: {other:?}"))),
    }
    Ok(())
}

/// Words that need not be sound or of the length of a world, with pairs and answers that the world would take or not.
fn wrong_words(world: &World, random: &mut Random, tally: &mut Tally) -> Compared {
    let words = inputs::words(random, world, 4);
    let number = any_number(random);
    let mut pairs = named(random, world, 2 * number);
    let length = number + usize::from(random.one_in(2));
    if random.one_in(2) {
        put_absent(random, world, &mut pairs, tally);
    }
    let alone = tally::number(&world.precedes(&pairs, &mut vec![0; length])) as usize;
    let words = Lent::holding(random, &words);
    match reference::sound::read(words.part()) {
        Err(Refusal::WorldLength) => {
            tally.cover("answer of the world where the words have another length", alone);
        }
        Err(_) => tally.cover("answer of the world where the words are not sound", alone),
        Ok(_) => {}
    }
    let asked = Asked::new(random, &pairs, length);
    calls::precedes(&words, &asked, random, tally)
}

/// Two messages, and the lowest group of the first.
struct Pair<'a> {
    numbers: [usize; 2],
    first: &'a Message,
    second: &'a Message,
    group: usize,
}

impl Pair<'_> {
    fn new<'a>(world: &'a World, words: &[u16]) -> Pair<'a> {
        let numbers = [words[0], words[1]].map(usize::from);
        let [first, second] = numbers.map(|message| &world.messages[message]);
        Pair { numbers, first, second, group: groups(first).next().expect("a message to a group") }
    }

    /// Whether C[group][process] of the first is at most that of the second.
    fn at_most(&self, group: usize, process: usize) -> bool {
        self.first.counters[group][process] <= self.second.counters[group][process]
    }

    /// C of both for the lowest group and the sender of the first.
    fn counters(&self) -> [u16; 2] {
        [self.first, self.second].map(|message| message.counters[self.group][self.first.sender])
    }

    /// s of both for that group.
    fn sequence_numbers(&self) -> [u16; 2] {
        [self.first, self.second].map(|message| message.sequence_numbers[self.group])
    }

    /// The lowest group that both are to.
    fn shared(&self) -> Option<usize> {
        groups(self.first).find(|&group| self.second.groups[group])
    }
}

fn groups(message: &Message) -> impl DoubleEndedIterator<Item = usize> + '_ {
    (0..GROUPS).filter(|&group| message.groups[group])
}

/// Other ways to answer for two messages that differ, each of which may have no answer.
type Other = fn(&Pair) -> Option<bool>;

const OTHERS: [(&str, Other); 12] = [
    ("the highest group of the first says otherwise", |pair| {
        groups(pair.first).next_back().map(|group| pair.at_most(group, pair.first.sender))
    }),
    ("all groups of the first say otherwise", |pair| {
        Some(groups(pair.first).all(|group| pair.at_most(group, pair.first.sender)))
    }),
    ("some group of the first says otherwise", |pair| {
        Some(groups(pair.first).any(|group| pair.at_most(group, pair.first.sender)))
    }),
    ("a group of both says otherwise", |pair| {
        pair.shared().map(|group| pair.at_most(group, pair.first.sender))
    }),
    ("the lowest group of the second says otherwise", |pair| {
        groups(pair.second).next().map(|group| pair.at_most(group, pair.first.sender))
    }),
    ("the entry of the second's sender says otherwise", |pair| {
        Some(pair.at_most(pair.group, pair.second.sender))
    }),
    ("s of the first says otherwise", |pair| Some(pair.sequence_numbers()[0] <= pair.counters()[1])),
    ("s of the second says otherwise", |pair| Some(pair.counters()[0] <= pair.sequence_numbers()[1])),
    ("s of both says otherwise", |pair| Some(pair.sequence_numbers()[0] <= pair.sequence_numbers()[1])),
    ("less than says otherwise", |pair| Some(pair.counters()[0] < pair.counters()[1])),
    ("the other way round says otherwise", |pair| Some(pair.counters()[1] <= pair.counters()[0])),
    ("the order of their numbers says otherwise", |pair| Some(pair.numbers[0] < pair.numbers[1])),
];

/// Notes a pair and its byte. In a world that steps reached a message precedes only later ones; in others the byte is
/// told from what other ways to answer give.
fn note(pair: &Pair, byte: u8, reached: bool, tally: &mut Tally) -> Compared {
    let [first, second] = pair.numbers;
    tally.cover("first message", first);
    tally.cover("second message", second);
    tally.cover("sender of the first", pair.first.sender);
    tally.cover("lowest group of the first", pair.group);
    if !reached {
        note_otherwise(pair, byte, tally);
        return Ok(());
    }
    tally.cover("where steps led", byte.into());
    if byte == 1 && first >= second {
        return Err(Difference(format!("both sides, where steps led: {first} precedes {second}")));
    }
    Ok(())
}

/// Notes which other ways to answer give another byte than this one.
fn note_otherwise(pair: &Pair, byte: u8, tally: &mut Tally) {
    if pair.numbers[0] == pair.numbers[1] {
        tally.cover("a message and itself", byte.into());
        return;
    }
    for (name, other) in OTHERS {
        if other(pair).map_or(false, |answer| u8::from(answer) != byte) {
            tally.cover(name, byte.into());
        }
    }
    if pair.shared().is_none() {
        tally.cover("no group of both", byte.into());
    }
}
