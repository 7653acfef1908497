//! Document 01, "The world": processes, messages and the letters in flight, and the fresh world of a setup record.

use crate::Refusal;
use std::collections::BTreeSet;

/// The most processes, groups and messages.
pub const PROCESSES: usize = 16;
pub const GROUPS: usize = 8;
pub const MESSAGES: usize = 64;

/// A number for each group and process.
pub type Table = [[u16; PROCESSES]; GROUPS];
pub type ProcessSet = [bool; PROCESSES];
pub type GroupSet = [bool; GROUPS];

#[derive(Clone, Debug, PartialEq, Eq)]
pub struct World {
    pub processes: Vec<Process>,
    pub messages: Vec<Message>,
    pub flight: BTreeSet<Letter>,
}

#[derive(Clone, Debug, PartialEq, Eq)]
pub struct Process {
    pub group: usize,
    pub up: bool,
    pub trust: ProcessSet,
    /// C[g][q]: the messages of q to group g that this process knows of.
    pub counters: Table,
    /// b[g]: the messages that this process multicast to group g.
    pub sequence_counts: [u16; GROUPS],
    /// next[q]: the sequence number of q's next message to be FIFO-delivered.
    pub next: [u16; PROCESSES],
    /// del[q]: the counter of q's last message that was causally delivered.
    pub del: [u16; PROCESSES],
    pub held: [bool; MESSAGES],
    /// For each message, the processes whose OK has arrived.
    pub marks: [ProcessSet; MESSAGES],
    pub fifo_log: Vec<usize>,
    pub causal_log: Vec<usize>,
}

#[derive(Clone, Debug, PartialEq, Eq)]
pub struct Message {
    pub sender: usize,
    /// The addressed groups.
    pub groups: GroupSet,
    /// C[g][q], as the sender had it.
    pub counters: Table,
    /// s[g].
    pub sequence_numbers: [u16; GROUPS],
    /// The order number that its multicast carried; 0 is no order.
    pub order: u16,
}

#[derive(Clone, Copy, Debug, PartialEq, Eq, PartialOrd, Ord)]
pub enum Kind {
    First,
    Relay,
    Ok,
}

/// A letter. The order of letters is by message, kind, from, to.
#[derive(Clone, Copy, Debug, PartialEq, Eq, PartialOrd, Ord)]
pub struct Letter {
    pub message: usize,
    pub kind: Kind,
    pub from: usize,
    pub to: usize,
}

impl World {
    /// The fresh world of a setup record: 0, n, then 3 bits for the group of each process, the lowest first.
    pub fn fresh(setup: &[u8]) -> Result<World, Refusal> {
        if setup.len() != 8 || setup[0] != 0 || !(1..=PROCESSES).contains(&usize::from(setup[1])) {
            return Err(Refusal::Setup);
        }
        let n = usize::from(setup[1]);
        let mut groups = [0; PROCESSES];
        for (i, group) in groups.iter_mut().enumerate() {
            for bit in 0..3 {
                let at = 3 * i + bit;
                *group += usize::from(setup[2 + at / 8] >> (at % 8) & 1) << bit;
            }
        }
        let highest = *groups.iter().max().expect("16 processes");
        let without_gap = (0..=highest).all(|group| groups[..n].contains(&group));
        if !without_gap || groups[n..].iter().any(|&group| group != 0) {
            return Err(Refusal::Setup);
        }
        let processes = groups[..n].iter().map(|&group| Process::fresh(group, n)).collect();
        Ok(World { processes, messages: Vec::new(), flight: BTreeSet::new() })
    }

    /// The number of groups.
    pub fn groups(&self) -> usize {
        1 + self.processes.iter().map(|process| process.group).max().expect("a process")
    }

    pub fn is_addressee(&self, message: usize, process: usize) -> bool {
        self.messages[message].groups[self.processes[process].group]
    }

    /// Puts letters of the message, of this kind and from this process, in flight to all addressees.
    pub fn send(&mut self, message: usize, kind: Kind, from: usize) {
        for to in 0..self.processes.len() {
            if self.is_addressee(message, to) {
                self.flight.insert(Letter { message, kind, from, to });
            }
        }
    }
}

impl Process {
    fn fresh(group: usize, n: usize) -> Process {
        let mut trust = [false; PROCESSES];
        trust[..n].fill(true);
        let mut next = [0; PROCESSES];
        next[..n].fill(1);
        Process {
            group,
            up: true,
            trust,
            counters: [[0; PROCESSES]; GROUPS],
            sequence_counts: [0; GROUPS],
            next,
            del: [0; PROCESSES],
            held: [false; MESSAGES],
            marks: [[false; PROCESSES]; MESSAGES],
            fifo_log: Vec::new(),
            causal_log: Vec::new(),
        }
    }
}
