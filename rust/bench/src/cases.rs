//! The cases: what each makes beforehand, with the second implementation, and the call that it is about.

use crate::sides::{reference_copy, Side};
use reference::random::Random;
use reference::record::{self, Record};
use reference::sample::{self, RACE};
use reference::world::{Kind, Letter, World};
use reference::{calls, journal, sound, words};

const WORDS: usize = 20_480;
const LONGEST: usize = 8_064;
/// A journal of 128 blocks, all of them full.
const FULL: &[u8] = include_bytes!("../../../bench/full.journal");
/// Steps of a run taken by the public call, each of which tests the whole world.
const PUBLIC: usize = 500;

/// Runs the call of the case on a side; the number of its units. Nothing where no case has this name.
pub fn run(case: &str, side: &Side, processes: usize, messages: usize) -> Option<usize> {
    let setup = setup(processes);
    let mut words = vec![0; WORDS];
    let units = match case {
        "sound-full" => sound(side, &full(&setup, messages)),
        "sound-flying" => sound(side, &flying(&setup, messages)),
        "sound-fresh" => sound(side, &flying(&setup, 0)),
        "make" => {
            (side.make)(&mut words, &setup);
            1
        }
        "log" => (side.log)(&full(&setup, messages)),
        "order" => order(side, &full(&setup, messages)),
        "awaited" => awaited(side, &setup, messages),
        "precedes" => precedes(side, &setup, messages),
        "copy" => copy(&full(&setup, messages)),
        "preview" => preview(side, &setup, messages),
        "arrival" => arrival(side, &setup, messages),
        "deliverable" => deliverable(side, &full(&setup, messages)),
        "release" => release(side, &setup, messages),
        "step" => public_steps(side, &setup),
        "settle" => (side.settle)(&mut flying(&setup, messages)) as usize,
        "settle-dead" => (side.settle)(&mut three_dead(&setup, messages)) as usize,
        "settle-fair" => (side.settle_fair)(&mut flying(&setup, messages)) as usize,
        "settle-fair-dead" => (side.settle_fair)(&mut three_dead(&setup, messages)) as usize,
        "count" => (side.count)(&run_journal(&setup)),
        "replay" => (side.replay)(&mut words, &run_journal(&setup)) as usize + 1,
        "count-full" => (side.count)(FULL),
        "read" => read(side),
        "write" => write(side),
        "replay-full" => (side.replay)(&mut words, FULL) as usize + 1,
        _ => return None,
    };
    Some(units)
}

/// Two processes to a group, and no more than 8 groups.
fn setup(processes: usize) -> Record {
    let groups: Vec<usize> = (0..processes).map(|p| p / 2).collect();
    record::setup(&groups)
}

/// The world after messages to all groups, from each process in turn and with order numbers from 1,000 on: every first
/// letter in flight.
fn flying(setup: &[u8], messages: usize) -> Vec<u16> {
    let mut words = vec![0; WORDS];
    calls::make(&mut words, setup).expect("a good setup");
    let processes = usize::from(setup[1]);
    let groups = ((1_u32 << ((processes + 1) / 2)) - 1) as u8;
    for m in 0..messages {
        let step = record::multicast_with_order(m % processes, groups, 1_000 + m as u16);
        calls::step(&mut words, &step).expect("a multicast is taken");
    }
    words
}

/// The same with the last three processes crashed: the letters from them and to them are left in flight.
fn three_dead(setup: &[u8], messages: usize) -> Vec<u16> {
    let mut words = flying(setup, messages);
    let processes = usize::from(setup[1]);
    for process in processes - 3..processes {
        calls::step(&mut words, &record::crash(process)).expect("a crash is taken");
    }
    words
}

/// All first letters in flight, settled.
fn full(setup: &[u8], messages: usize) -> Vec<u16> {
    let mut words = flying(setup, messages);
    calls::settle(&mut words, u32::MAX).expect("a sound world");
    words
}

fn sound(side: &Side, words: &[u16]) -> usize {
    (side.sound)(words);
    words.len()
}

fn order(side: &Side, words: &[u16]) -> usize {
    assert_eq!((side.order)(words), 1_063);
    1
}

/// The last message of a full world awaits the one before it at process 0, that of the last process: both are found
/// late.
fn awaited(side: &Side, setup: &[u8], messages: usize) -> usize {
    let last = usize::from(setup[1]) - 1;
    assert_eq!((side.awaited)(&overtaking(setup, messages)), (last, messages - 2));
    1
}

/// The full world in which process 0 lacks the message before the last. That one is of the last process, and the last
/// one of the process before, which has delivered it.
fn overtaking(setup: &[u8], messages: usize) -> Vec<u16> {
    let mut world = sound::read(&full(setup, messages - 2)).expect("a sound world");
    trust_all_but_the_first(&mut world);
    let last = world.processes.len() - 1;
    for sender in [last, last - 1] {
        multicast_to_others(&mut world, sender);
    }
    take(&mut world, &ok_of_the_second(messages - 1));
    let process = &world.processes[0];
    assert_eq!((process.fifo_log.len(), process.causal_log.len()), (messages - 1, messages - 2));
    words::encode(&world)
}

/// Four pairs for each message of the full world, with messages of its own process and of others. No message arrived
/// before the last was multicast: each precedes the later ones of its process, and no others.
fn precedes(side: &Side, setup: &[u8], messages: usize) -> usize {
    let processes = usize::from(setup[1]);
    let distances = [1, processes, processes + 1, 2 * processes];
    let pairs: Vec<[usize; 2]> =
        distances.iter().flat_map(|far| (0..messages).map(move |x| [x, (x + far) % messages])).collect();
    let words: Vec<u16> = pairs.concat().iter().map(|&message| message as u16).collect();
    let mut answers = vec![255; pairs.len()];
    assert_eq!((side.precedes)(&full(setup, messages), &words, &mut answers), messages as u32);
    let right = pairs.iter().map(|[x, m]| u8::from(x % processes == m % processes && x < m));
    assert_eq!(answers, right.collect::<Vec<u8>>());
    assert!([0, 1].iter().all(|byte| answers.contains(byte)));
    pairs.len()
}

/// The words of a world, copied.
fn copy(words: &[u16]) -> usize {
    let mut to = vec![0; words.len()];
    reference_copy(words, &mut to);
    assert_eq!(to, words);
    words.len()
}

/// The full world but for its last letter, and the arrival of that one: a FIFO and a causal delivery.
fn last_letter(setup: &[u8], messages: usize) -> (Vec<u16>, Record) {
    let mut words = flying(setup, messages);
    let arrivals = calls::settle(&mut words.clone(), u32::MAX).expect("a sound world").arrivals;
    calls::settle(&mut words, arrivals - 1).expect("a sound world");
    let letters = sound::read(&words).expect("a sound world").flight;
    assert_eq!(letters.len(), 1);
    let step = record::arrival(*letters.iter().next().expect("a letter"));
    (words, step)
}

fn preview(side: &Side, setup: &[u8], messages: usize) -> usize {
    let (words, step) = last_letter(setup, messages);
    assert_eq!((side.preview)(&words, &step, &mut [0; WORDS]), (1, 1));
    1
}

fn arrival(side: &Side, setup: &[u8], messages: usize) -> usize {
    let (mut words, step) = last_letter(setup, messages);
    (side.step)(&mut words, &step);
    assert_eq!(words, full(setup, messages));
    1
}

/// The test of one message at one process, which passes: all entries are looked at.
fn deliverable(side: &Side, words: &[u16]) -> usize {
    assert!((side.deliverable)(words));
    1
}

/// The step that releases the most: process 0 has all messages but the first in its FIFO log, each waits for that one,
/// directly or through others, and then it comes.
fn release(side: &Side, setup: &[u8], messages: usize) -> usize {
    let (mut words, step) = held_back(setup, messages);
    (side.step)(&mut words, &step);
    let world = sound::read(&words).expect("a sound world");
    assert_eq!(world.processes[0].causal_log.len(), messages);
    1
}

/// The world before that step, and the step. The first message is of the middle process, the others of the processes
/// but that one and 0, in turn.
fn held_back(setup: &[u8], messages: usize) -> (Vec<u16>, Record) {
    let mut world = World::fresh(setup).expect("a good setup");
    trust_all_but_the_first(&mut world);
    let processes = world.processes.len();
    let middle = processes / 2;
    let senders: Vec<usize> = (1..processes).filter(|&p| p != middle).collect();
    for m in 0..messages {
        let sender = if m == 0 { middle } else { senders[m % senders.len()] };
        multicast_to_others(&mut world, sender);
    }
    for m in 1..messages {
        take(&mut world, &ok_of_the_second(m));
    }
    let process = &world.processes[0];
    assert_eq!((process.fifo_log.len(), process.causal_log.len()), (messages - 1, 0));
    (words::encode(&world), ok_of_the_second(0))
}

/// Nobody trusts process 0, so that the others deliver without it; process 0 trusts process 1 alone, whose OK brings it
/// a message and lets it deliver that in FIFO order.
fn trust_all_but_the_first(world: &mut World) {
    let others = ((1_u32 << world.processes.len()) - 2) as u16;
    for p in 0..world.processes.len() {
        take(world, &record::trust(p, if p == 0 { 2 } else { others }));
    }
}

/// A message to all groups, which all processes but 0 deliver.
fn multicast_to_others(world: &mut World, sender: usize) {
    let groups = ((1_u32 << world.groups()) - 1) as u8;
    take(world, &record::multicast(sender, groups));
    while let Some(letter) = world.flight.iter().copied().find(|letter| letter.to != 0) {
        take(world, &record::arrival(letter));
    }
}

/// The OK of process 1 arrives at process 0.
fn ok_of_the_second(message: usize) -> Record {
    record::arrival(Letter { message, kind: Kind::Ok, from: 1, to: 0 })
}

fn take(world: &mut World, step: &[u8]) {
    world.step(step).expect("a step that is taken");
}

/// A long random run: a setup and steps, most of which the world takes.
fn random_run(setup: &[u8]) -> Vec<Record> {
    let mut random = Random::new(1, 1);
    let mut world = World::fresh(setup).expect("a good setup");
    let mut records = vec![];
    while records.len() < LONGEST - 1 {
        let step = sample::step(&mut random, &world, &RACE);
        if step.len() == 8 {
            let _ = world.step(&step);
            let mut record = [0; 8];
            record.copy_from_slice(&step);
            records.push(record);
        }
    }
    records
}

fn run_journal(setup: &[u8]) -> Vec<u8> {
    let records = [setup.to_vec(), random_run(setup).concat()].concat();
    let mut bytes = vec![0; journal::length(records.len()).expect("a good length")];
    journal::write(&records, &mut bytes).expect("a good length");
    bytes
}

/// The records of the full journal.
fn full_records() -> Vec<u8> {
    let mut records = vec![0; 8 * LONGEST];
    journal::read(FULL, &mut records).expect("a good journal");
    records
}

/// The full journal read into bytes that are all set before.
fn read(side: &Side) -> usize {
    let mut records = vec![255; 8 * LONGEST];
    (side.read)(FULL, &mut records);
    assert_eq!(records, full_records());
    LONGEST
}

/// Its records written, the same way.
fn write(side: &Side) -> usize {
    let mut bytes = vec![255; FULL.len()];
    (side.write)(&full_records(), &mut bytes);
    assert_eq!(bytes, FULL);
    LONGEST
}

/// Steps of that run by the public call, spread over all of it.
fn public_steps(side: &Side, setup: &[u8]) -> usize {
    let mut world = World::fresh(setup).expect("a good setup");
    let mut taken = 0;
    for (at, step) in random_run(setup).iter().enumerate() {
        if at % (LONGEST / PUBLIC) == 0 {
            (side.step)(&mut words::encode(&world), step);
            taken += 1;
        }
        let _ = world.step(step);
    }
    taken
}
