//! The settle that serves processes in turn: in worlds that steps reached and in worlds that are only sound, with budgets
//! about what it needs, some calls one after another. Each is held against other ways to settle, so that a wrong one can
//! be told from the right one.

use super::calls::{self, Compared, FAIR};
use super::inputs;
use super::{note_settle, STARTS};
use crate::lent::Lent;
use crate::tally::Tally;
use reference::random::Random;
use reference::settle::Settled;
use reference::words::encode;
use reference::world::{Letter, World, PROCESSES};

pub const ANSWERS: &[(&str, &[u32])] = &[
    ("fair settle, done", &[0]),
    ("fair settle, stopped", &[0]),
    ("fair settle", &[1, 2]),
    ("settle, done after a letter of a dead sender", &[0]),
    ("settle, stopped before letters of dead senders alone", &[0]),
    ("settle, done with letters left to a process that is down", &[0]),
];
/// The other ways to settle that are told from the right one, in worlds that steps reached and in others; what is met
/// in both; and the turns.
pub const COVER: &[(&str, usize)] = &[
    ("start and kind, done after a letter of a dead sender", 3 * STARTS.len()),
    ("start, stopped before letters of dead senders alone", STARTS.len()),
    ("start, done with letters left to a process that is down", STARTS.len()),
    ("the lowest letter of all says otherwise", STARTS.len()),
    ("the lowest process says otherwise", STARTS.len()),
    ("the process itself first says otherwise", STARTS.len()),
    ("the process itself never says otherwise", STARTS.len()),
    ("the turns backwards say otherwise", STARTS.len()),
    ("the turns ending at the last process say otherwise", STARTS.len()),
    ("the first turn of process 1 says otherwise", STARTS.len()),
    ("the first turn of the last process says otherwise", STARTS.len()),
    ("the next turn, served or not, says otherwise", STARTS.len()),
    ("the turn of the call before says otherwise", STARTS.len()),
    ("processes that are down served say otherwise", STARTS.len()),
    ("origins that are up alone say otherwise", STARTS.len()),
    ("the highest letter says otherwise", STARTS.len()),
    ("kind before message says otherwise", STARTS.len()),
    ("from before kind says otherwise", STARTS.len()),
    ("one arrival fewer says otherwise", STARTS.len()),
    ("one arrival more says otherwise", STARTS.len()),
    ("stopped where none remains says otherwise", STARTS.len()),
    ("done where one remains says otherwise", STARTS.len()),
    ("the budget for the arrivals says otherwise", STARTS.len()),
    ("process served first", PROCESSES),
    ("process served after itself", PROCESSES),
    ("process served after the one before it", PROCESSES - 1),
    ("processes passed over", PROCESSES),
    ("number of processes where the turn came round to 0", PROCESSES),
    ("process that is down passed over, with a letter", PROCESSES - 1),
];

/// The calls of one input, each on the words that the one before left.
const CALLS: usize = 4;
/// The other ways to settle are tried where the right one makes no more arrivals than these.
const MOST: u32 = 60;

pub fn input(index: u64, random: &mut Random, tally: &mut Tally) -> Compared {
    let start = index as usize % STARTS.len();
    let mut world = inputs::to_settle(random, STARTS[start]);
    if random.one_in(4) {
        inputs::crash_first(random, &mut world);
    }
    let mut last = None;
    for _ in 0..CALLS {
        let (kind, budget) = match random.below(3) {
            0 => inputs::budget(random, world.clone().settle_fair(u32::MAX).arrivals),
            _ => ("settle, a small budget", random.between(1, 24) as u32),
        };
        tally.input(kind);
        calls::settle(&FAIR, &Lent::holding(random, &encode(&world)), budget, tally)?;
        let (settled, served, after) = settle(&world, budget);
        note_settle(&world, settled, &after, start, tally);
        note_turns(&world, &served, tally);
        if settled.arrivals <= MOST {
            note_otherwise(&Call { world: &world, budget, last }, settled, &after, start, tally);
        }
        last = served.last().copied().or(last);
        world = after;
        if settled.done {
            break;
        }
    }
    tally.input("settle, words that need not be sound");
    let words = inputs::words(random, &world, 4);
    calls::settle(&FAIR, &Lent::holding(random, &words), random.below(40) as u32, tally)
}

/// What the right settle says, the processes that it serves, and the world that it leaves.
fn settle(world: &World, budget: u32) -> (Settled, Vec<usize>, World) {
    let (mut after, mut served) = (world.clone(), Vec::new());
    let settled = after.settle_by(budget, |world, last| {
        served.extend(last);
        world.letter_in_turn(last)
    });
    (settled, served, after)
}

/// Notes who was served after whom. A process is passed over if it has no letter, or is down.
fn note_turns(world: &World, served: &[usize], tally: &mut Tally) {
    let n = world.processes.len();
    if let Some(&first) = served.first() {
        tally.cover("process served first", first);
        for down in world.flight.iter().map(|letter| letter.to).filter(|&p| p < first) {
            tally.cover("process that is down passed over, with a letter", down);
        }
    }
    for pair in served.windows(2) {
        let (p, q) = (pair[0], pair[1]);
        tally.cover("processes passed over", (q + n - p - 1) % n);
        if q == p {
            tally.cover("process served after itself", p);
        }
        if q == p + 1 {
            tally.cover("process served after the one before it", p);
        }
        if q == 0 {
            tally.cover("number of processes where the turn came round to 0", n - 1);
        }
    }
}

/// A call that is compared: the world and the budget, and where the last arrival was of the calls before.
struct Call<'a> {
    world: &'a World,
    budget: u32,
    last: Option<usize>,
}

impl Call<'_> {
    /// Settles by another choice of the next letter.
    fn by(&self, choose: impl FnMut(&World, Option<usize>) -> Option<Letter>) -> (Settled, World) {
        let mut after = self.world.clone();
        let settled = after.settle_by(self.budget, choose);
        (settled, after)
    }

    /// The right settle with another budget.
    fn with(&self, budget: u32) -> (Settled, World) {
        let (settled, _, after) = settle(self.world, budget);
        (settled, after)
    }

    /// Settles in turn, but says something else of it.
    fn saying(&self, other: impl Fn(Settled) -> Settled) -> (Settled, World) {
        let (settled, after) = self.with(self.budget);
        (other(settled), after)
    }
}

/// The letters in flight to a process that is up, the lowest first.
fn letters(world: &World, p: usize) -> impl Iterator<Item = Letter> + '_ {
    world.flight.iter().copied().filter(move |letter| letter.to == p && world.processes[p].up)
}

/// The lowest letter to the first of these processes that has one.
fn first_of(world: &World, mut turns: impl Iterator<Item = usize>) -> Option<Letter> {
    turns.find_map(|p| letters(world, p).next())
}

/// The turns from this process on, coming round to those before it.
fn from(world: &World, first: usize) -> impl Iterator<Item = usize> {
    let n = world.processes.len();
    (0..n).map(move |i| (first + i) % n)
}

/// The letter that is chosen among those to the process whose turn it is.
fn of_turn(
    world: &World,
    last: Option<usize>,
    choose: impl Fn(Vec<Letter>) -> Option<Letter>,
) -> Option<Letter> {
    from(world, last.map_or(0, |p| p + 1)).find_map(|p| choose(letters(world, p).collect()))
}

/// The lowest letter in another order.
fn least(letters: Vec<Letter>, key: fn(&Letter) -> (usize, usize, usize)) -> Option<Letter> {
    letters.into_iter().min_by_key(key)
}

/// Another way to settle: what it says and leaves.
type Other = fn(&Call) -> (Settled, World);

const OTHERS: [(&str, Other); 20] = [
    ("the lowest letter of all says otherwise", |call| {
        let mut after = call.world.clone();
        let settled = after.settle(call.budget);
        (settled, after)
    }),
    ("the lowest process says otherwise", |call| call.by(|world, _| first_of(world, from(world, 0)))),
    ("the process itself first says otherwise", |call| {
        call.by(|world, last| first_of(world, from(world, last.unwrap_or(0))))
    }),
    ("the process itself never says otherwise", |call| {
        call.by(|world, last| {
            let others = from(world, last.map_or(0, |p| p + 1)).filter(|&p| Some(p) != last);
            first_of(world, others)
        })
    }),
    ("the turns backwards say otherwise", |call| {
        call.by(|world, last| {
            let n = world.processes.len();
            first_of(world, (1..=n).map(|i| (last.unwrap_or(0) + n - i) % n))
        })
    }),
    ("the turns ending at the last process say otherwise", |call| {
        call.by(|world, last| first_of(world, last.map_or(0, |p| p + 1)..world.processes.len()))
    }),
    ("the first turn of process 1 says otherwise", |call| {
        call.by(|world, last| first_of(world, from(world, last.unwrap_or(0) + 1)))
    }),
    ("the first turn of the last process says otherwise", |call| {
        call.by(|world, last| first_of(world, from(world, last.map_or(world.processes.len() - 1, |p| p + 1))))
    }),
    ("the next turn, served or not, says otherwise", |call| {
        let mut turn = 0;
        call.by(|world, _| {
            turn += 1;
            first_of(world, from(world, turn - 1))
        })
    }),
    ("the turn of the call before says otherwise", |call| {
        call.by(|world, last| world.letter_in_turn(last.or(call.last)))
    }),
    ("processes that are down served say otherwise", |call| {
        let mut after = call.world.clone();
        after.processes.iter_mut().for_each(|process| process.up = true);
        let settled = after.settle_fair(call.budget);
        for (process, before) in after.processes.iter_mut().zip(&call.world.processes) {
            process.up = before.up;
        }
        (settled, after)
    }),
    ("origins that are up alone say otherwise", |call| {
        call.by(|world, last| {
            of_turn(world, last, |letters| letters.into_iter().find(|letter| world.processes[letter.from].up))
        })
    }),
    ("the highest letter says otherwise", |call| {
        call.by(|world, last| of_turn(world, last, |letters| letters.last().copied()))
    }),
    ("kind before message says otherwise", |call| {
        call.by(|world, last| {
            of_turn(world, last, |letters| least(letters, |l| (l.kind as usize, l.message, l.from)))
        })
    }),
    ("from before kind says otherwise", |call| {
        call.by(|world, last| {
            of_turn(world, last, |letters| least(letters, |l| (l.message, l.from, l.kind as usize)))
        })
    }),
    ("one arrival fewer says otherwise", |call| call.with(call.budget.saturating_sub(1))),
    ("one arrival more says otherwise", |call| call.with(call.budget.saturating_add(1))),
    ("stopped where none remains says otherwise", |call| {
        call.saying(|settled| Settled { done: settled.done && settled.arrivals < call.budget, ..settled })
    }),
    ("done where one remains says otherwise", |call| {
        call.saying(|settled| Settled { done: true, ..settled })
    }),
    ("the budget for the arrivals says otherwise", |call| {
        call.saying(|settled| Settled { arrivals: call.budget, ..settled })
    }),
];

/// Notes which other ways to settle say or leave something else.
fn note_otherwise(call: &Call, settled: Settled, after: &World, start: usize, tally: &mut Tally) {
    for (name, other) in OTHERS {
        let (says, leaves) = other(call);
        if says != settled || leaves != *after {
            tally.cover(name, start);
        }
    }
}
