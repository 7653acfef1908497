//! Document 01, "Cascade at p": FIFO deliveries, and the causal deliveries that each makes possible. The answer of card
//! 5 of document 02 says what is deliverable.

use crate::awaited::Awaited;
use crate::world::{Kind, World};

impl World {
    /// FIFO-delivers at p, lowest message first, while some message is ready.
    pub(crate) fn cascade(&mut self, p: usize) {
        while let Some(message) = (0..self.messages.len()).find(|&message| self.is_ready(p, message)) {
            self.fifo_deliver(p, message);
        }
    }

    /// The message is its sender's next one to the group of p.
    pub(crate) fn is_in_turn(&self, p: usize, message: usize) -> bool {
        let process = &self.processes[p];
        let message = &self.messages[message];
        message.sequence_numbers[process.group] == process.next[message.sender]
    }

    /// Held, outside the FIFO log, in turn, with marks from every trusted process of each addressed group.
    fn is_ready(&self, p: usize, message: usize) -> bool {
        let process = &self.processes[p];
        let waited_for = |q: usize| process.trust[q] && self.is_addressee(message, q);
        process.held[message]
            && !process.fifo_log.contains(&message)
            && self.is_in_turn(p, message)
            && (0..self.processes.len()).all(|q| !waited_for(q) || process.marks[message][q])
    }

    fn fifo_deliver(&mut self, p: usize, message: usize) {
        self.processes[p].fifo_log.push(message);
        while let Some(deliverable) = self.earliest_deliverable(p) {
            self.causally_deliver(p, deliverable);
        }
        let sender = self.messages[message].sender;
        self.processes[p].next[sender] += 1;
        for other in 0..self.messages.len() {
            let of_sender = self.messages[other].sender == sender;
            if self.processes[p].held[other] && of_sender && self.is_in_turn(p, other) {
                self.send(other, Kind::Ok, p);
            }
        }
    }

    /// The earliest message of the FIFO log of p outside its causal log that is deliverable.
    fn earliest_deliverable(&self, p: usize) -> Option<usize> {
        let process = &self.processes[p];
        let outside = |message: &&usize| !process.causal_log.contains(message);
        let deliverable = |message: &usize| self.deliverable(p, *message) == Awaited::Nothing;
        process.fifo_log.iter().filter(outside).copied().find(deliverable)
    }

    fn causally_deliver(&mut self, p: usize, message: usize) {
        let process = &mut self.processes[p];
        let delivered = &self.messages[message];
        process.causal_log.push(message);
        process.del[delivered.sender] = delivered.counters[process.group][delivered.sender];
        for (row, new_row) in process.counters.iter_mut().zip(&delivered.counters) {
            for (counter, new) in row.iter_mut().zip(new_row) {
                *counter = (*counter).max(*new);
            }
        }
    }
}
