//! Whose messages are awaited at the end of a run: for each message that waits, the chain to one that is not there yet.
//! The engine says which message each awaits; nothing is computed anew.

use crate::names::Names;
use crate::run::{End, Run};
use engine::{Awaited, Refusal};

/// A message that is awaited, and its sender.
#[derive(Clone, Copy, Debug, PartialEq, Eq)]
pub struct Link {
    pub of: u8,
    pub message: u8,
}

/// A message in the FIFO log of a process and not in its causal log, with what it waits for.
#[derive(Clone, Debug, PartialEq, Eq)]
pub struct Chain {
    pub process: u8,
    pub message: u8,
    /// At least one, each awaited by the one before. The last is not in the FIFO log of the process; the others are.
    pub links: Vec<Link>,
    /// Whether a letter of the last one has arrived at the process.
    pub arrived: bool,
}

impl Chain {
    fn new(run: &Run, process: u8, message: u8) -> Chain {
        let mut links = Vec::new();
        let mut last = message;
        while let Some(link) = awaited(run, process, last) {
            assert!(link.message < last, "what is awaited was multicast before");
            last = link.message;
            links.push(link);
        }
        let arrived = run.flights.iter().any(|flight| {
            let here = (flight.letter.message, flight.letter.to) == (last, process);
            here && matches!(flight.end, End::Arrived(_))
        });
        Chain { process, message, links, arrived }
    }

    fn line(&self, names: &Names) -> String {
        let (process, message) = (names.name(self.process), self.message);
        let links: Vec<String> =
            self.links.iter().map(|link| format!("{} of {}", link.message, names.name(link.of))).collect();
        let links = links.join(", which waits for ");
        let end = if self.arrived { "has arrived but is not FIFO-delivered" } else { "has not arrived" };
        format!("{process}: message {message} waits for {links}, which {end}\n")
    }
}

/// The message that this one awaits at the process; none if this one is not in its FIFO log.
fn awaited(run: &Run, process: u8, message: u8) -> Option<Link> {
    match run.world.awaited(process, message) {
        Ok(Awaited::Message { of, message }) => Some(Link { of, message }),
        Err(Refusal::NotWaiting) => None,
        other => panic!("in a world that steps reached: {other:?}"),
    }
}

/// The chains of a run: process by process, and at each in the order of its FIFO log.
pub fn chains(run: &Run) -> Vec<Chain> {
    run.waiting.iter().map(|wait| Chain::new(run, wait.process, wait.message)).collect()
}

/// The chains in words, a line for each.
pub fn lines(run: &Run, names: &Names) -> String {
    chains(run).iter().map(|chain| chain.line(names)).collect()
}
