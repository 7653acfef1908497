//! Document 01, "Steps": the five steps, with refusals 4 to 12; a multicast carries an order number (document 02,
//! card 1).

use crate::world::{Kind, Letter, Message, ProcessSet, World, GROUPS, MESSAGES};
use crate::Refusal;

/// The parts of a step that is well formed. Operands may still name what does not exist.
enum Step {
    Multicast { process: usize, mask: u8, order: u16 },
    Arrival(Letter),
    Loss(Letter),
    Trust { process: usize, mask: u16 },
    Crash { process: usize },
}

impl Step {
    fn read(bytes: &[u8]) -> Result<Step, Refusal> {
        if bytes.len() != 8 {
            return Err(Refusal::Form);
        }
        let (step, used) = match bytes[0] {
            1 => {
                let order = u16::from_le_bytes([bytes[3], bytes[4]]);
                (Step::Multicast { process: usize::from(bytes[1]), mask: bytes[2], order }, 5)
            }
            2 => (Step::Arrival(read_letter(bytes)?), 5),
            3 => (Step::Loss(read_letter(bytes)?), 5),
            4 => {
                let mask = u16::from_le_bytes([bytes[2], bytes[3]]);
                (Step::Trust { process: usize::from(bytes[1]), mask }, 4)
            }
            5 => (Step::Crash { process: usize::from(bytes[1]) }, 2),
            _ => return Err(Refusal::Form),
        };
        if bytes[used..].iter().any(|&byte| byte != 0) {
            return Err(Refusal::Form);
        }
        Ok(step)
    }
}

fn read_letter(bytes: &[u8]) -> Result<Letter, Refusal> {
    let kind = match bytes[1] {
        0 => Kind::First,
        1 => Kind::Relay,
        2 => Kind::Ok,
        _ => return Err(Refusal::Form),
    };
    let [message, from, to] = [bytes[2], bytes[3], bytes[4]].map(usize::from);
    Ok(Letter { message, kind, from, to })
}

impl World {
    /// Takes a step, or refuses it and changes nothing.
    pub fn step(&mut self, bytes: &[u8]) -> Result<(), Refusal> {
        match Step::read(bytes)? {
            Step::Multicast { process, mask, order } => self.multicast(process, mask, order),
            Step::Arrival(letter) => self.arrival(letter),
            Step::Loss(letter) => self.loss(letter),
            Step::Trust { process, mask } => self.trust(process, mask),
            Step::Crash { process } => self.crash(process),
        }
    }

    fn multicast(&mut self, p: usize, mask: u8, order: u16) -> Result<(), Refusal> {
        self.exists(p)?;
        if mask == 0 || usize::from(mask) >= 1 << self.groups() {
            return Err(Refusal::GroupMask);
        }
        self.is_up(p)?;
        if self.messages.len() == MESSAGES {
            return Err(Refusal::Full);
        }
        let mut groups = [false; GROUPS];
        for g in (0..GROUPS).filter(|g| mask >> g & 1 == 1) {
            groups[g] = true;
            self.processes[p].counters[g][p] += 1;
            self.processes[p].sequence_counts[g] += 1;
        }
        let counters = self.processes[p].counters;
        let sequence_numbers = self.processes[p].sequence_counts;
        self.messages.push(Message { sender: p, groups, counters, sequence_numbers, order });
        self.send(self.messages.len() - 1, Kind::First, p);
        Ok(())
    }

    pub(crate) fn arrival(&mut self, letter: Letter) -> Result<(), Refusal> {
        self.names_what_exists(letter)?;
        self.is_up(letter.to)?;
        self.is_in_flight(letter)?;
        self.flight.remove(&letter);
        let Letter { message, kind, from, to } = letter;
        if kind == Kind::Ok {
            self.processes[to].marks[message][from] = true;
        }
        if !self.processes[to].held[message] {
            self.processes[to].held[message] = true;
            let answer = if self.is_in_turn(to, message) { Kind::Ok } else { Kind::Relay };
            self.send(message, answer, to);
        }
        self.cascade(to);
        Ok(())
    }

    fn loss(&mut self, letter: Letter) -> Result<(), Refusal> {
        self.names_what_exists(letter)?;
        self.is_in_flight(letter)?;
        if self.processes[letter.from].up && self.processes[letter.to].up {
            return Err(Refusal::BothUp);
        }
        self.flight.remove(&letter);
        Ok(())
    }

    fn trust(&mut self, p: usize, mask: u16) -> Result<(), Refusal> {
        self.exists(p)?;
        if usize::from(mask) >= 1 << self.processes.len() {
            return Err(Refusal::TrustMask);
        }
        self.is_up(p)?;
        let mut trust: ProcessSet = Default::default();
        for (q, trusted) in trust.iter_mut().enumerate() {
            *trusted = mask >> q & 1 == 1;
        }
        self.processes[p].trust = trust;
        self.cascade(p);
        Ok(())
    }

    fn crash(&mut self, p: usize) -> Result<(), Refusal> {
        self.exists(p)?;
        self.is_up(p)?;
        self.processes[p].up = false;
        Ok(())
    }

    fn exists(&self, process: usize) -> Result<(), Refusal> {
        expect(process < self.processes.len(), Refusal::NoProcess)
    }

    fn names_what_exists(&self, letter: Letter) -> Result<(), Refusal> {
        self.exists(letter.from)?;
        self.exists(letter.to)?;
        expect(letter.message < self.messages.len(), Refusal::NoMessage)
    }

    fn is_up(&self, process: usize) -> Result<(), Refusal> {
        expect(self.processes[process].up, Refusal::Down)
    }

    fn is_in_flight(&self, letter: Letter) -> Result<(), Refusal> {
        expect(self.flight.contains(&letter), Refusal::NotInFlight)
    }
}

fn expect(holds: bool, refusal: Refusal) -> Result<(), Refusal> {
    if holds {
        Ok(())
    } else {
        Err(refusal)
    }
}
