//! Worlds that are only sound, in which one message of a FIFO log is outside the causal log, and a step that tries it:
//! whether it is deliverable is decided by one counter, or by one group's counters.

use super::calls;
use crate::difference::Difference;
use crate::lent::Lent;
use crate::tally::Tally;
use reference::random::Random;
use reference::words::encode;
use reference::world::{World, GROUPS, MESSAGES, PROCESSES};
use reference::{record, sample};

/// Which counters are above del, if any.
#[derive(Clone, Copy, PartialEq, Eq)]
enum Above {
    /// One, and not the sender's: the message waits. Those for other groups are zero.
    Another,
    /// The sender's alone.
    Sender,
    /// None: all are equal to del.
    None,
    /// All for other groups.
    OtherGroups,
}

const KINDS: [(&str, Above); 4] = [
    ("waiting, another counter above del", Above::Another),
    ("waiting, the sender's counter above del", Above::Sender),
    ("waiting, all counters equal to del", Above::None),
    ("waiting, counters for other groups above del", Above::OtherGroups),
];

pub const ANSWERS: &[(&str, &[u32])] =
    &[("step", &[0]), ("deliverable, yes", &[0]), ("deliverable, no", &[0])];
pub const COVER: &[(&str, usize)] = &[
    ("counter that alone is above del", PROCESSES),
    ("sender's counter above del", PROCESSES),
    ("group of the process where others' counters are above del", GROUPS),
];

/// The step is a trust step that lets a new message into the FIFO log, behind which the waiting one is tried.
pub fn input(index: u64, random: &mut Random, tally: &mut Tally) -> Result<(), Difference> {
    let (kind, above) = KINDS[(index % 4) as usize];
    tally.input(kind);
    let processes = if random.one_in(2) { PROCESSES } else { random.between(2, PROCESSES) };
    let setup = sample::setup_of(random, processes);
    let count = random.between(2, MESSAGES);
    let mut world = sample::sound_world_of(random, &setup, count);
    let p = random.below(processes);
    let waiting = random.below(count);
    let new = (waiting + random.between(1, count - 1)) % count;
    hold_back(random, &mut world, p, waiting, new);
    set_counters(random, &mut world, p, waiting, above, tally);

    let mut words = Lent::holding(random, &encode(&world));
    calls::step_on(&mut world, &mut words, &record::trust(p, 0), tally)?;
    let delivered = world.processes[p].causal_log.contains(&waiting);
    tally.answer(if delivered { "deliverable, yes" } else { "deliverable, no" }, 0);
    if delivered == (above == Above::Another) {
        return Err(Difference(format!("both sides have it delivered: {delivered}")));
    }
    Ok(())
}

/// Makes p an up process that has one message of its FIFO log outside its causal log, and one new message that it can
/// deliver in FIFO order once it trusts nobody, but not causally.
fn hold_back(random: &mut Random, world: &mut World, p: usize, waiting: usize, new: usize) {
    let (n, count) = (world.processes.len(), world.messages.len());
    let senders: Vec<usize> = world.messages.iter().map(|message| message.sender).collect();
    let process = &mut world.processes[p];
    process.up = true;
    process.held = [false; MESSAGES];
    process.held[new] = true;
    process.fifo_log.retain(|&message| message != new && message != waiting);
    process.causal_log = process.fifo_log.clone();
    process.fifo_log.insert(random.between(0, process.causal_log.len()), waiting);
    for q in 0..n {
        process.next[q] =
            1 + process.fifo_log.iter().filter(|&&message| senders[message] == q).count() as u16;
        process.del[q] = random.between(0, count - 1) as u16;
    }
    let (group, next) = (process.group, process.next[senders[new]]);
    world.messages[waiting].groups[group] = true;
    let message = &mut world.messages[new];
    message.groups[group] = true;
    message.sequence_numbers[group] = next;
    message.counters[group][(message.sender + 1) % n] = count as u16;
}

/// Gives the waiting message counters that del of p allows, but for those that are to be above it.
fn set_counters(
    random: &mut Random,
    world: &mut World,
    p: usize,
    waiting: usize,
    above: Above,
    tally: &mut Tally,
) {
    let (groups, count) = (world.groups(), world.messages.len());
    let World { processes, messages, .. } = world;
    let (own, del) = (processes[p].group, processes[p].del);
    let message = &mut messages[waiting];
    for (group, row) in message.counters[..groups].iter_mut().enumerate() {
        for (q, counter) in row[..processes.len()].iter_mut().enumerate() {
            *counter = match above {
                Above::Another if group != own => 0,
                Above::OtherGroups if group != own => count as u16,
                Above::None => del[q],
                _ => random.between(0, usize::from(del[q])) as u16,
            };
        }
    }
    let q = match above {
        Above::Another => (message.sender + random.between(1, processes.len() - 1)) % processes.len(),
        _ => message.sender,
    };
    if matches!(above, Above::Another | Above::Sender) {
        message.counters[own][q] = random.between(usize::from(del[q]) + 1, count) as u16;
    }
    match above {
        Above::Another => tally.cover("counter that alone is above del", q),
        Above::Sender => tally.cover("sender's counter above del", q),
        Above::OtherGroups if groups > 1 => {
            tally.cover("group of the process where others' counters are above del", own);
        }
        _ => {}
    }
}
