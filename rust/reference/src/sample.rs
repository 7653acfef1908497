//! Random setups and steps, for tests and the comparison.

use crate::random::Random;
use crate::record::{self, Record};
use crate::world::{Kind, Letter, Message, ProcessSet, Table, World, GROUPS, MESSAGES, PROCESSES};

/// How often each kind of step is made, by weight. Damaged steps are refused mostly.
#[derive(Clone, Copy)]
pub struct Weights {
    pub multicast: usize,
    pub arrival: usize,
    pub loss: usize,
    pub trust: usize,
    pub crash: usize,
    pub damaged: usize,
    /// The OKs of one message in so many arrive seldom at a process, so that others overtake it there; 0 for none.
    pub slow: usize,
}

/// Mostly arrivals.
pub const CALM: Weights =
    Weights { multicast: 60, arrival: 900, loss: 10, trust: 15, crash: 1, damaged: 20, slow: 0 };
/// Messages that overtake others.
pub const RACE: Weights =
    Weights { multicast: 60, arrival: 1500, loss: 5, trust: 5, crash: 1, damaged: 5, slow: 3 };
/// Many crashes, losses and changes of trust.
pub const STORM: Weights =
    Weights { multicast: 60, arrival: 600, loss: 100, trust: 100, crash: 10, damaged: 20, slow: 5 };
/// Multicasts up to the most, with few arrivals.
pub const FLOOD: Weights =
    Weights { multicast: 600, arrival: 200, loss: 10, trust: 10, crash: 5, damaged: 50, slow: 0 };
/// Mostly steps to be refused.
pub const WRONG: Weights =
    Weights { multicast: 60, arrival: 200, loss: 60, trust: 30, crash: 10, damaged: 600, slow: 0 };

/// A valid setup of at most so many processes.
pub fn setup(random: &mut Random, most: usize) -> Record {
    let n = random.between(1, most.min(PROCESSES));
    setup_of(random, n)
}

/// A valid setup of n processes.
pub fn setup_of(random: &mut Random, n: usize) -> Record {
    let groups = random.between(1, n.min(GROUPS));
    let mut of: Vec<usize> = (0..n).map(|i| if i < groups { i } else { random.below(groups) }).collect();
    for i in 1..n {
        of.swap(i, random.below(i + 1));
    }
    record::setup(&of)
}

/// A step for this world: one that it takes, mostly, or one with a byte changed or a wrong length.
pub fn step(random: &mut Random, world: &World, weights: &Weights) -> Vec<u8> {
    let Weights { multicast, arrival, loss, trust, crash, damaged, slow } = *weights;
    let mut at = random.below(multicast + arrival + loss + trust + crash + damaged);
    let mut within = |weight: usize| {
        let hit = at < weight;
        at = at.wrapping_sub(weight);
        hit
    };
    if within(multicast) {
        any_multicast(random, world).to_vec()
    } else if within(arrival) {
        any_arrival(random, world, slow).to_vec()
    } else if within(loss) {
        let up = |process: usize| world.processes[process].up;
        record::loss(any_letter(random, world, |letter| !up(letter.from) || !up(letter.to))).to_vec()
    } else if within(trust) {
        any_trust(random, world).to_vec()
    } else if within(crash) {
        record::crash(any_process(random, world)).to_vec()
    } else {
        damaged_step(random, world)
    }
}

/// An up process, if one is soon found.
fn any_process(random: &mut Random, world: &World) -> usize {
    let mut process = 0;
    for _ in 0..4 {
        process = random.below(world.processes.len());
        if world.processes[process].up {
            break;
        }
    }
    process
}

fn any_multicast(random: &mut Random, world: &World) -> Record {
    let groups = world.groups();
    let mask = match random.below(4) {
        0 | 1 => 1 << random.below(groups),
        2 => (1 << groups) - 1,
        _ => random.between(1, (1 << groups) - 1),
    };
    record::multicast_with_order(any_process(random, world), mask as u8, order(random))
}

/// An order number: none, a small one, one of two bytes, or the highest.
pub fn order(random: &mut Random) -> u16 {
    match random.below(4) {
        0 => 0,
        1 => random.between(1, 255) as u16,
        2 => random.between(256, 65_534) as u16,
        _ => u16::MAX,
    }
}

/// An arrival at an up process mostly; a multicast mostly where no such letter is found.
fn any_arrival(random: &mut Random, world: &World, slow: usize) -> Record {
    let any = random.one_in(32);
    let waits = |letter: &Letter| {
        let slowed = slow > 0 && letter.kind == Kind::Ok && (letter.message + letter.to) % slow == 0;
        slowed || !world.processes[letter.to].up
    };
    let letter = any_letter(random, world, |letter| any || !waits(letter));
    if world.flight.contains(&letter) || random.one_in(8) {
        record::arrival(letter)
    } else {
        any_multicast(random, world)
    }
}

fn any_trust(random: &mut Random, world: &World) -> Record {
    let n = world.processes.len();
    let all = ((1u32 << n) - 1) as u16;
    let mut up = 0;
    for (q, process) in world.processes.iter().enumerate() {
        up |= u16::from(process.up) << q;
    }
    let mask = match random.below(4) {
        0 => all,
        1 => up,
        2 => up & random.next() as u16,
        _ => all & random.next() as u16,
    };
    record::trust(any_process(random, world), mask)
}

/// A letter in flight that passes the test, if one is soon found from a random place on; else some other letter.
fn any_letter(random: &mut Random, world: &World, test: impl Fn(&Letter) -> bool) -> Letter {
    let place = Letter {
        message: random.below(world.messages.len().max(1)),
        kind: random.pick(&[Kind::First, Kind::Relay, Kind::Ok]),
        from: random.below(world.processes.len()),
        to: random.below(world.processes.len()),
    };
    let after = world.flight.range(place..).take(64).find(|letter| test(letter));
    after.or_else(|| world.flight.iter().take(64).find(|letter| test(letter))).copied().unwrap_or(place)
}

fn damaged_step(random: &mut Random, world: &World) -> Vec<u8> {
    let mut step = match random.below(6) {
        0 => any_multicast(random, world),
        1 => record::arrival(any_letter(random, world, |_| true)),
        2 => record::loss(any_letter(random, world, |_| true)),
        3 => any_trust(random, world),
        4 => record::crash(random.below(PROCESSES)),
        _ => [random.below(7) as u8, random.below(4) as u8, 0, 0, 0, 0, 0, 0],
    };
    let small = random.below(18) as u8;
    match random.below(8) {
        0 => return step[..random.below(8)].to_vec(),
        1 => return [step, [0; 8]].concat()[..random.between(9, 16)].to_vec(),
        2 => step[random.below(8)] = random.byte(),
        3..=5 => step[random.between(1, 4)] = small,
        6 => step[random.below(8)] = random.pick(&[0, 1, 2, 3, 16, 63, MESSAGES as u8, 128, 255]),
        _ => {}
    }
    step.to_vec()
}

/// A sound world of at most so many processes, with anything in it that soundness allows: mostly one that no run
/// reaches.
pub fn sound_world(random: &mut Random, most: usize) -> World {
    let setup = setup(random, most);
    let count = if random.one_in(8) { random.between(0, MESSAGES) } else { random.between(0, 12) };
    sound_world_of(random, &setup, count)
}

/// Such a world of this setup, with so many messages.
pub fn sound_world_of(random: &mut Random, setup: &[u8], count: usize) -> World {
    let mut world = World::fresh(setup).expect("a valid setup");
    let groups = world.groups();
    for _ in 0..count {
        let mask = random.between(1, (1 << groups) - 1);
        let message = Message {
            sender: random.below(world.processes.len()),
            groups: std::array::from_fn(|g| mask >> g & 1 == 1),
            counters: any_table(random, &world, count),
            sequence_numbers: any_numbers(random, groups, count),
            order: order(random),
        };
        world.messages.push(message);
    }
    for p in 0..world.processes.len() {
        any_state(random, &mut world, p);
    }
    for message in 0..count {
        any_letters(random, &mut world, message);
    }
    world
}

/// Numbers up to the count, low ones mostly, for so many; zeros after.
fn any_numbers<const LENGTH: usize>(random: &mut Random, used: usize, count: usize) -> [u16; LENGTH] {
    let highest = if random.one_in(4) { count } else { count.min(2) };
    let mut numbers = [0; LENGTH];
    for number in &mut numbers[..used] {
        *number = random.between(0, highest) as u16;
    }
    numbers
}

fn any_table(random: &mut Random, world: &World, count: usize) -> Table {
    let mut table = [[0; PROCESSES]; GROUPS];
    for row in &mut table[..world.groups()] {
        *row = any_numbers(random, world.processes.len(), count);
    }
    table
}

/// Gives process p any state that is sound for the messages of the world.
fn any_state(random: &mut Random, world: &mut World, p: usize) {
    let n = world.processes.len();
    let count = world.messages.len();
    let mut own: Vec<usize> = (0..count).filter(|&m| world.is_addressee(m, p)).collect();
    for i in 1..own.len() {
        own.swap(i, random.below(i + 1));
    }
    own.truncate(random.between(0, own.len()));
    let mut process = world.processes[p].clone();
    process.up = !random.one_in(5);
    process.trust = any_set(random, |q| q < n);
    process.counters = any_table(random, world, count);
    process.sequence_counts = any_numbers(random, world.groups(), count);
    process.del = any_numbers(random, n, count);
    for m in (0..count).filter(|&m| world.is_addressee(m, p)) {
        process.held[m] = random.one_in(2);
        process.marks[m] = any_set(random, |q| q < n && world.is_addressee(m, q));
    }
    for &m in &own {
        process.next[world.messages[m].sender] += 1;
        if random.one_in(2) {
            process.causal_log.push(m);
        }
    }
    process.fifo_log = own;
    if random.one_in(2) {
        process.causal_log.reverse();
    }
    world.processes[p] = process;
}

/// Some of the processes that are allowed: none, all or any.
fn any_set(random: &mut Random, allowed: impl Fn(usize) -> bool) -> ProcessSet {
    let mask = match random.below(4) {
        0 => 0,
        1 | 2 => 0xFFFF,
        _ => random.next(),
    };
    std::array::from_fn(|q| mask >> q & 1 == 1 && allowed(q))
}

fn any_letters(random: &mut Random, world: &mut World, message: usize) {
    for kind in [Kind::First, Kind::Relay, Kind::Ok] {
        for from in 0..world.processes.len() {
            let origin = match kind {
                Kind::First => from == world.messages[message].sender,
                _ => world.is_addressee(message, from),
            };
            if origin && random.one_in(2) {
                let receivers =
                    any_set(random, |to| to < world.processes.len() && world.is_addressee(message, to));
                let to = (0..PROCESSES).filter(|&to| receivers[to]);
                world.flight.extend(to.map(|to| Letter { message, kind, from, to }));
            }
        }
    }
}
