//! Document 02, card 5: whose message is awaited.

use crate::world::{Process, World};
use crate::Refusal;

/// The answer of the deliverable test.
#[derive(Clone, Copy, Debug, PartialEq, Eq)]
pub enum Awaited {
    /// Yes: the message is deliverable.
    Nothing,
    /// The lowest process whose entry falls short, with its lowest message that is the next one to the group.
    Message { of: usize, message: usize },
    /// That process alone: it has no such message.
    Process { of: usize },
}

impl World {
    /// What is awaited by a message of the FIFO log of p outside its causal log. Refusals 5, 7, 18.
    pub fn awaited(&self, p: usize, message: usize) -> Result<Awaited, Refusal> {
        let process = self.processes.get(p).ok_or(Refusal::NoProcess)?;
        if message >= self.messages.len() {
            return Err(Refusal::NoMessage);
        }
        if !process.fifo_log.contains(&message) || process.causal_log.contains(&message) {
            return Err(Refusal::NotWaiting);
        }
        Ok(self.deliverable(p, message))
    }

    /// The deliverable test: whether C[group of p][q] of the message is at most del[q] for all q other than its sender;
    /// and if not, what it waits for.
    pub fn deliverable(&self, p: usize, message: usize) -> Awaited {
        let process = &self.processes[p];
        let short = (0..self.processes.len()).find(|&q| self.falls_short(process, message, q));
        match short {
            None => Awaited::Nothing,
            Some(of) => {
                let next = (0..self.messages.len()).find(|&x| self.is_next(process, of, x));
                next.map_or(Awaited::Process { of }, |message| Awaited::Message { of, message })
            }
        }
    }

    /// The entry of q falls short: the message counts more messages of q to this group than are delivered.
    fn falls_short(&self, process: &Process, message: usize, q: usize) -> bool {
        let message = &self.messages[message];
        q != message.sender && message.counters[process.group][q] > process.del[q]
    }

    /// A message of q to this group, whose C[this group][q] is del[q] plus 1.
    fn is_next(&self, process: &Process, q: usize, message: usize) -> bool {
        let message = &self.messages[message];
        message.sender == q
            && message.groups[process.group]
            && message.counters[process.group][q] == process.del[q] + 1
    }
}
