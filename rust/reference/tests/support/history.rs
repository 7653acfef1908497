//! The history of a run: its events, as document 01 has them, and the trust sets that were in force. No counter
//! plays a part in it.

use reference::record::Record;
use reference::world::{ProcessSet, World, MESSAGES};

#[derive(Clone)]
pub struct History {
    events: Vec<Event>,
    trust_sets: Vec<ProcessSet>,
    /// How much of each causal log is among the events.
    noted: Vec<usize>,
}

#[derive(Clone, Copy, PartialEq)]
enum Event {
    Multicast { process: usize, message: usize },
    Delivery { process: usize, message: usize },
}

impl Event {
    fn process(self) -> usize {
        match self {
            Event::Multicast { process, .. } | Event::Delivery { process, .. } => process,
        }
    }

    /// This event, earlier than the other, precedes it without a chain.
    fn leads_to(self, other: Event) -> bool {
        let carried = match (self, other) {
            (Event::Multicast { message, .. }, Event::Delivery { message: delivered, .. }) => {
                message == delivered
            }
            _ => false,
        };
        carried || self.process() == other.process()
    }
}

/// `of[m][x]`: message x precedes message m.
pub struct Precedence {
    of: Vec<Vec<bool>>,
}

impl Precedence {
    pub fn precedes(&self, x: usize, m: usize) -> bool {
        self.of[m][x]
    }
}

impl History {
    pub fn of_fresh(world: &World) -> History {
        let trust_sets = world.processes.iter().map(|process| process.trust).collect();
        History { events: Vec::new(), trust_sets, noted: vec![0; world.processes.len()] }
    }

    /// Takes a step and notes its events if it is accepted.
    pub fn step(&mut self, world: &mut World, step: &[u8]) {
        if world.step(step).is_err() {
            return;
        }
        let process = usize::from(step[1]);
        match step[0] {
            1 => self.events.push(Event::Multicast { process, message: world.messages.len() - 1 }),
            4 => self.trust_sets.push(world.processes[process].trust),
            _ => {}
        }
        self.note_deliveries(world);
    }

    pub fn steps(&mut self, world: &mut World, steps: &[Record]) {
        for step in steps {
            self.step(world, step);
        }
    }

    /// Notes what the causal logs have grown by.
    pub fn note_deliveries(&mut self, world: &World) {
        for (process, state) in world.processes.iter().enumerate() {
            for &message in &state.causal_log[self.noted[process]..] {
                self.events.push(Event::Delivery { process, message });
            }
            self.noted[process] = state.causal_log.len();
        }
    }

    /// Precedence of messages: the transitive closure over the events.
    pub fn precedence(&self) -> Precedence {
        let mut before: Vec<Vec<bool>> = Vec::new();
        let mut of = vec![vec![false; MESSAGES]; MESSAGES];
        for (at, event) in self.events.iter().enumerate() {
            let mut earlier = vec![false; at];
            for other in (0..at).rev() {
                if !earlier[other] && self.events[other].leads_to(*event) {
                    earlier[other] = true;
                    before[other].iter().enumerate().for_each(|(i, &is)| earlier[i] |= is);
                }
            }
            if let Event::Multicast { message, .. } = event {
                for (other, _) in earlier.iter().enumerate().filter(|(_, &is)| is) {
                    if let Event::Multicast { message: x, .. } = self.events[other] {
                        of[*message][x] = true;
                    }
                }
            }
            before.push(earlier);
        }
        Precedence { of }
    }

    /// The trust rule for the list that led to this world.
    pub fn trust_rule(&self, world: &World) -> bool {
        let up = |q: usize| world.processes[q].up;
        let live = |group: usize| {
            (0..world.processes.len()).filter(move |&q| up(q) && world.processes[q].group == group)
        };
        let names_live = |trust: &ProcessSet| {
            (0..world.groups()).all(|group| live(group).next().is_none() || live(group).any(|q| trust[q]))
        };
        let trusts_up_only =
            |p: usize| (0..world.processes.len()).all(|q| up(q) || !world.processes[p].trust[q]);
        self.trust_sets.iter().all(names_live)
            && (0..world.processes.len()).all(|p| !up(p) || trusts_up_only(p))
    }
}
