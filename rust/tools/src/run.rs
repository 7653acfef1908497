//! What happens in the run of a journal, in order: accepted steps, deliveries and refused records; and each letter from
//! its sending to its end. The engine says what is taken and what the logs and letters are; nothing is computed anew but
//! which messages precede which, by document 01's sentence on events.

use engine::{journal, Letter, Record, Refusal, Setup, Step, World, MESSAGES};

/// A set of messages, bit m for message m.
type Messages = u64;

#[derive(Clone, Copy, Debug, PartialEq, Eq)]
pub enum What {
    /// A message to the groups of the mask, with its order number; 0 is no order.
    Multicast {
        message: u8,
        groups: u8,
        order: u16,
    },
    Arrival,
    Loss,
    Trust {
        trusted: u16,
    },
    Crash,
    /// Deliveries come right after the arrival or trust step that leads to them.
    Fifo {
        message: u8,
    },
    Causal {
        message: u8,
    },
    /// No process: the record changed nothing.
    Refused {
        refusal: Refusal,
    },
}

/// Something that happens, at a process and in a record of the journal; records count from 0, the setup.
#[derive(Clone, Copy, Debug, PartialEq, Eq)]
pub struct Moment {
    pub record: usize,
    pub process: u8,
    pub what: What,
}

#[derive(Clone, Copy, Debug, PartialEq, Eq)]
pub enum End {
    Arrived(usize),
    Lost(usize),
    InFlight,
}

/// A letter, with the moments of its sending and its end.
#[derive(Clone, Copy, Debug, PartialEq, Eq)]
pub struct Flight {
    pub letter: Letter,
    pub sent: usize,
    pub end: End,
}

/// A message in the FIFO log of a process and not in its causal log at the end, with those that it waits for.
#[derive(Clone, Debug, PartialEq, Eq)]
pub struct Waiting {
    pub process: u8,
    pub message: u8,
    pub for_messages: Vec<u8>,
}

pub struct Run {
    pub groups: Vec<u8>,
    pub moments: Vec<Moment>,
    pub flights: Vec<Flight>,
    pub waiting: Vec<Waiting>,
    /// The world at the end.
    pub world: World,
    /// The records after the setup, and how many of these were refused.
    pub steps: usize,
    pub refused: usize,
}

impl Run {
    /// The run of a journal. Refusals 13, block by block 14 and 15, then 3.
    pub fn of_journal(journal: &[u8]) -> Result<Run, Refusal> {
        let records = journal::to_records(journal)?;
        let setup = records.first().and_then(Setup::from_record).ok_or(Refusal::Setup)?;
        let mut recorder = Recorder::new(&setup)?;
        for (number, record) in records.iter().enumerate().skip(1) {
            recorder.step(number, record);
        }
        Ok(recorder.finish(records.len() - 1))
    }
}

/// Takes the steps and notes what they do.
struct Recorder {
    world: World,
    groups: Vec<u8>,
    moments: Vec<Moment>,
    flights: Vec<Flight>,
    /// The letters in flight, in their order, with their places among the flights.
    flying: Vec<(Letter, usize)>,
    /// The messages that each process knows of: those that it multicast or causally delivered, and those before them.
    known: Vec<Messages>,
    /// The messages that precede each message.
    past: [Messages; MESSAGES],
    refused: usize,
}

impl Recorder {
    fn new(setup: &Setup) -> Result<Recorder, Refusal> {
        Ok(Recorder {
            world: World::from_setup(setup)?,
            groups: setup.groups().to_vec(),
            moments: Vec::new(),
            flights: Vec::new(),
            flying: Vec::new(),
            known: vec![0; setup.groups().len()],
            past: [0; MESSAGES],
            refused: 0,
        })
    }

    fn step(&mut self, number: usize, record: &Record) {
        let before = self.world.clone();
        if let Err(refusal) = self.world.step_bytes(record) {
            self.moments.push(Moment { record: number, process: 0, what: What::Refused { refusal } });
            self.refused += 1;
            return;
        }
        let step = Step::from_record(record).expect("a step that was taken");
        let moment = self.moments.len();
        let (process, what) = match step {
            Step::Multicast { process, groups, order } => {
                (process, What::Multicast { message: before.messages() as u8, groups, order })
            }
            Step::Arrival(letter) => (letter.to, What::Arrival),
            Step::Loss(letter) => (letter.to, What::Loss),
            Step::Trust { process, trusted } => (process, What::Trust { trusted }),
            Step::Crash { process } => (process, What::Crash),
        };
        self.moments.push(Moment { record: number, process, what });
        if let What::Multicast { message, .. } = what {
            self.past[usize::from(message)] = self.known[usize::from(process)];
            self.known[usize::from(process)] |= 1 << message;
        }
        self.note_letters(step, moment);
        self.note_deliveries(&before, number, process);
    }

    /// The letter of an arrival or a loss ends; letters that are new in flight were sent.
    fn note_letters(&mut self, step: Step, moment: usize) {
        let ended = match step {
            Step::Arrival(letter) => Some((letter, End::Arrived(moment))),
            Step::Loss(letter) => Some((letter, End::Lost(moment))),
            _ => None,
        };
        if let Some((letter, end)) = ended {
            let place = self.place(letter).expect("a letter that was in flight");
            let (_, flight) = self.flying.remove(place);
            self.flights[flight].end = end;
        }
        for letter in self.world.letters() {
            if let Err(place) = self.place(letter) {
                self.flying.insert(place, (letter, self.flights.len()));
                self.flights.push(Flight { letter, sent: moment, end: End::InFlight });
            }
        }
    }

    /// Where the letter is among those in flight, or where it would be.
    fn place(&self, letter: Letter) -> Result<usize, usize> {
        self.flying.binary_search_by_key(&letter, |&(letter, _)| letter)
    }

    /// What the logs of the process have grown by. After each FIFO delivery come the causal ones that it allows.
    fn note_deliveries(&mut self, before: &World, record: usize, process: u8) {
        let had = |log: Result<&[u16], Refusal>| log.expect("a process of the world").len();
        let fifo = log(self.world.fifo_log(process));
        let causal = log(self.world.causal_log(process));
        let mut delivered = had(before.causal_log(process));
        for place in had(before.fifo_log(process))..fifo.len() {
            self.moments.push(Moment { record, process, what: What::Fifo { message: fifo[place] } });
            let here = set(&fifo[..=place]);
            while delivered < causal.len() && self.missing(process, causal[delivered], here).is_empty() {
                let message = causal[delivered];
                self.moments.push(Moment { record, process, what: What::Causal { message } });
                self.known[usize::from(process)] |= 1 << message | self.past[usize::from(message)];
                delivered += 1;
            }
        }
        assert_eq!(delivered, causal.len(), "each causal delivery follows a FIFO delivery that allows it");
    }

    /// The messages that keep the process from delivering this one causally: the message itself and those to its group
    /// that precede it, without those that it has FIFO-delivered.
    fn missing(&self, process: u8, message: u8, fifo: Messages) -> Vec<u8> {
        let group = self.groups[usize::from(process)];
        let needed = self.past[usize::from(message)] | 1 << message;
        let to_group = |m: &u8| self.world.group_mask(*m).map_or(false, |mask| mask >> group & 1 == 1);
        (0..MESSAGES as u8).filter(|m| (needed & !fifo) >> m & 1 == 1).filter(to_group).collect()
    }

    fn finish(self, steps: usize) -> Run {
        let mut waiting = Vec::new();
        for process in 0..self.groups.len() as u8 {
            let fifo = log(self.world.fifo_log(process));
            let causal = log(self.world.causal_log(process));
            for &message in fifo.iter().filter(|message| !causal.contains(message)) {
                let for_messages = self.missing(process, message, set(&fifo));
                waiting.push(Waiting { process, message, for_messages });
            }
        }
        let Recorder { world, groups, moments, flights, refused, .. } = self;
        Run { groups, moments, flights, waiting, world, steps, refused }
    }
}

/// The items of a log of a process that exists.
fn log(log: Result<&[u16], Refusal>) -> Vec<u8> {
    log.expect("a process of the world").iter().map(|&message| message as u8).collect()
}

fn set(messages: &[u8]) -> Messages {
    messages.iter().fold(0, |set, message| set | 1 << message)
}
