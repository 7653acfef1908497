//! The world: one that is owned, and the calls on lent words.

use crate::{layout, raw, Letter, Refusal, Setup, Step};
use std::fmt;

/// The words of a world.
pub const WORDS: usize = 20_480;

/// A settle that may make so many arrivals says done, in a world that steps reached.
pub const SETTLE_ALL: u32 = 33_792;

/// The most pairs of messages that can be asked about at once.
pub const PAIRS: usize = 256;

/// A world of up to 16 processes, 8 groups and 64 messages. Its words are sound: only the calls below change them.
///
/// ```
/// use engine::{LetterKind, Step, World};
///
/// // Process 0 is in group 0, process 1 in group 1.
/// let mut world = World::new(&[0, 1])?;
/// world.step(Step::multicast(0, &[1])?)?;
/// world.step(Step::arrival(LetterKind::First, 0, 0, 1))?;
/// assert!(world.fifo_log(1)?.is_empty());
/// world.step(Step::arrival(LetterKind::Ok, 0, 1, 1))?;
/// assert_eq!(world.fifo_log(1)?, [0]);
/// assert_eq!(world.causal_log(1)?, [0]);
/// # Ok::<(), engine::Refusal>(())
/// ```
#[derive(Clone, PartialEq, Eq)]
pub struct World {
    words: Vec<u16>,
}

impl World {
    /// The fresh world of processes in these groups, the first that of process 0. Refusal 3.
    pub fn new(groups: &[u8]) -> Result<World, Refusal> {
        World::from_setup(&Setup::new(groups)?)
    }

    /// The fresh world of the setup. Refusal 3.
    pub fn from_setup(setup: &Setup) -> Result<World, Refusal> {
        let mut words = vec![0; WORDS];
        make(&mut words, &setup.record())?;
        Ok(World { words })
    }

    /// The world that a journal leads to. Refusals 13, block by block 14 and 15, then 3.
    ///
    /// ```
    /// use engine::{journal, Setup, Step, World};
    ///
    /// let records = [Setup::new(&[0])?.record(), Step::crash(0).record(), Step::crash(0).record()];
    /// let (world, replayed) = World::replay(&journal::from_records(&records)?)?;
    /// assert_eq!((replayed.steps, replayed.refused), (2, 1));
    /// assert!(!world.is_up(0));
    /// # Ok::<(), engine::Refusal>(())
    /// ```
    pub fn replay(journal: &[u8]) -> Result<(World, Replayed), Refusal> {
        let mut words = vec![0; WORDS];
        let replayed = replay(&mut words, journal)?;
        Ok((World { words }, replayed))
    }

    /// A world from words that were kept. Refusals 1, 2.
    pub fn from_words(words: Vec<u16>) -> Result<World, Refusal> {
        match log(&words, 0, false) {
            Ok(_) => Ok(World { words }),
            Err(refusal) => Err(refusal),
        }
    }

    pub fn words(&self) -> &[u16] {
        &self.words
    }

    /// Takes a step. Refusals 5 to 12.
    pub fn step(&mut self, step: Step) -> Result<(), Refusal> {
        self.step_bytes(&step.record())
    }

    /// Takes what is given as a step. Refusals 4 to 12.
    pub fn step_bytes(&mut self, bytes: &[u8]) -> Result<(), Refusal> {
        step(&mut self.words, bytes)
    }

    /// Shows what a step would do: the world that it would leave, and how many deliveries it adds. This world stays as
    /// it is. Refusals 5 to 12.
    ///
    /// ```
    /// use engine::{LetterKind, Previewed, Step, World};
    ///
    /// let mut world = World::new(&[0, 1])?;
    /// world.step(Step::multicast(0, &[1])?)?;
    /// world.step(Step::arrival(LetterKind::First, 0, 0, 1))?;
    /// let (then, adds) = world.preview(Step::arrival(LetterKind::Ok, 0, 1, 1))?;
    /// assert_eq!(adds, Previewed { fifo: 1, causal: 1 });
    /// assert_eq!(then.causal_log(1)?, [0]);
    /// assert!(world.causal_log(1)?.is_empty());
    /// # Ok::<(), engine::Refusal>(())
    /// ```
    pub fn preview(&self, step: Step) -> Result<(World, Previewed), Refusal> {
        self.preview_bytes(&step.record())
    }

    /// Shows what would come of what is given as a step. Refusals 4 to 12.
    pub fn preview_bytes(&self, bytes: &[u8]) -> Result<(World, Previewed), Refusal> {
        let mut words = vec![0; WORDS];
        let previewed = preview(&self.words, bytes, &mut words)?;
        Ok((World { words }, previewed))
    }

    /// Makes at most so many arrivals, each of the lowest letter whose receiver is up, from a process up or down. Once
    /// it is done, nothing is left to come to a process that is up. Its arrivals are no records of a journal: if you
    /// keep one, take as a step, again and again, the arrival of the first of [`World::letters`] whose receiver is up.
    /// That leaves the same words.
    ///
    /// ```
    /// use engine::{Settled, Step, World, SETTLE_ALL};
    ///
    /// let mut world = World::new(&[0, 1])?;
    /// world.step(Step::multicast(0, &[1])?)?;
    /// world.step(Step::crash(0))?;
    /// assert_eq!(world.settle(SETTLE_ALL), Settled { arrivals: 2, done: true });
    /// assert_eq!(world.causal_log(1)?, [0]);
    /// # Ok::<(), engine::Refusal>(())
    /// ```
    pub fn settle(&mut self, budget: u32) -> Settled {
        settle(&mut self.words, budget).expect("the words of a World are sound")
    }

    /// Makes at most so many arrivals as [`World::settle`] does, but serves the processes in turn, so that none starves:
    /// after an arrival at one the next is at the first after it that is up and has a letter in flight to it, of the
    /// lowest letter to it. Behind the last process comes process 0, and the one itself is tried last. Each call tries
    /// process 0 first: allow it at least as many arrivals as there are processes. In a world that steps reached both
    /// settles, allowed [`SETTLE_ALL`], end with the same messages in every log, maybe in another order.
    ///
    /// If you keep a journal, take as a step, again and again, the arrival of the first of [`World::letters`] to the
    /// process whose turn it is; at first the turn is that of process 0.
    ///
    /// ```
    /// use engine::{Settled, Step, World};
    ///
    /// // Two messages to process 1, then one to process 2. The arrivals are at 1, 2, 1 and 2.
    /// let mut world = World::new(&[0, 1, 2])?;
    /// world.step(Step::multicast(0, &[1])?)?;
    /// world.step(Step::multicast(0, &[1])?)?;
    /// world.step(Step::multicast(0, &[2])?)?;
    /// assert_eq!(world.settle_fair(4), Settled { arrivals: 4, done: false });
    /// assert_eq!((world.causal_log(1)?, world.causal_log(2)?), (&[0][..], &[2][..]));
    /// # Ok::<(), engine::Refusal>(())
    /// ```
    pub fn settle_fair(&mut self, budget: u32) -> Settled {
        settle_fair(&mut self.words, budget).expect("the words of a World are sound")
    }

    /// The messages that the process has FIFO-delivered, in order. Refusal 5.
    pub fn fifo_log(&self, process: u8) -> Result<&[u16], Refusal> {
        log(&self.words, process.into(), false)
    }

    /// The messages that the process has causally delivered, in order. Refusal 5.
    pub fn causal_log(&self, process: u8) -> Result<&[u16], Refusal> {
        log(&self.words, process.into(), true)
    }

    /// The order number of a message: the one that its multicast carried, 0 for no order. Refusal 7.
    ///
    /// ```
    /// use engine::{Refusal, Step, World};
    ///
    /// let mut world = World::new(&[0, 1])?;
    /// world.step(Step::multicast_with_order(0, &[1], 1017)?)?;
    /// world.step(Step::multicast(0, &[1])?)?;
    /// assert_eq!((world.order(0)?, world.order(1)?), (1017, 0));
    /// assert_eq!(world.order(2), Err(Refusal::Message));
    /// # Ok::<(), Refusal>(())
    /// ```
    pub fn order(&self, message: u8) -> Result<u16, Refusal> {
        order(&self.words, message.into())
    }

    /// Whose message is awaited by one that is in the FIFO log of a process, up or down, and not in its causal log. In
    /// a world that steps reached it is always [`Awaited::Message`]; if that message is in the FIFO log, it waits there
    /// too, and can be asked for in turn. Refusals 5, 7, 18.
    ///
    /// ```
    /// use engine::{Awaited, LetterKind, Refusal, Step, World};
    ///
    /// // The call, message 2, overtakes the recipe, message 0, which precedes it.
    /// let mut world = World::new(&[0, 1, 2])?;
    /// world.step(Step::multicast(0, &[2])?)?;
    /// world.step(Step::multicast(0, &[1])?)?;
    /// world.step(Step::arrival(LetterKind::First, 1, 0, 1))?;
    /// world.step(Step::arrival(LetterKind::Ok, 1, 1, 1))?;
    /// world.step(Step::multicast(1, &[2])?)?;
    /// world.step(Step::arrival(LetterKind::First, 2, 1, 2))?;
    /// world.step(Step::arrival(LetterKind::Ok, 2, 2, 2))?;
    /// assert_eq!(world.awaited(2, 2), Ok(Awaited::Message { of: 0, message: 0 }));
    /// assert_eq!(world.awaited(2, 0), Err(Refusal::NotWaiting));
    /// # Ok::<(), Refusal>(())
    /// ```
    pub fn awaited(&self, process: u8, message: u8) -> Result<Awaited, Refusal> {
        awaited(&self.words, process.into(), message.into())
    }

    /// Whether the first message of each pair precedes the second, for up to [`PAIRS`] pairs; and how many different
    /// messages the pairs name. A message never precedes itself. Refusal 19 for more pairs, then 7; [`precedes`] takes
    /// slices of any length, and gives every refusal.
    ///
    /// ```
    /// use engine::{LetterKind, Precedence, Refusal, Step, World};
    ///
    /// // Process 1 has delivered message 0 when it multicasts message 1. Process 2 has delivered neither.
    /// let mut world = World::new(&[0, 1, 2])?;
    /// world.step(Step::multicast(0, &[1])?)?;
    /// world.step(Step::arrival(LetterKind::First, 0, 0, 1))?;
    /// world.step(Step::arrival(LetterKind::Ok, 0, 1, 1))?;
    /// world.step(Step::multicast(1, &[2])?)?;
    /// world.step(Step::multicast(2, &[1])?)?;
    /// let answers = vec![true, false, false];
    /// assert_eq!(world.precedes(&[[0, 1], [1, 0], [0, 2]]), Ok(Precedence { answers, different: 3 }));
    /// assert_eq!(world.precedes(&[[0, 1], [0, 3]]), Err(Refusal::Message));
    /// assert_eq!(world.precedes(&[[0, 1]; 257]), Err(Refusal::PairsLength));
    /// # Ok::<(), Refusal>(())
    /// ```
    pub fn precedes(&self, pairs: &[[u16; 2]]) -> Result<Precedence, Refusal> {
        let mut answers = vec![0; pairs.len()];
        let different = precedes(&self.words, &pairs.concat(), &mut answers)?;
        Ok(Precedence { answers: answers.iter().map(|&answer| answer == 1).collect(), different })
    }

    /// The number of processes.
    pub fn processes(&self) -> usize {
        layout::processes(&self.words)
    }

    /// The number of messages so far.
    pub fn messages(&self) -> usize {
        layout::messages(&self.words)
    }

    /// Whether there is such a process and it is up.
    pub fn is_up(&self, process: u8) -> bool {
        layout::is_up(&self.words, process)
    }

    /// The group of a process, if there is such a one.
    pub fn group(&self, process: u8) -> Option<u8> {
        layout::group(&self.words, process)
    }

    /// The mask of the processes that a process trusts, if there is such a one.
    pub fn trust_mask(&self, process: u8) -> Option<u16> {
        layout::trust_mask(&self.words, process)
    }

    /// The sender of a message, if there is such a one.
    pub fn sender(&self, message: u8) -> Option<u8> {
        layout::sender(&self.words, message)
    }

    /// The mask of the groups that a message is to, if there is such a one.
    pub fn group_mask(&self, message: u8) -> Option<u8> {
        layout::group_mask(&self.words, message)
    }

    /// The letters in flight, which a network has to carry, in their order.
    pub fn letters(&self) -> Vec<Letter> {
        layout::letters(&self.words)
    }
}

impl fmt::Debug for World {
    fn fmt(&self, f: &mut fmt::Formatter<'_>) -> fmt::Result {
        write!(f, "World of {} processes, {} messages", self.processes(), self.messages())
    }
}

/// Makes the fresh world of a setup record, over any words. Refusals 1, 3.
pub fn make(world: &mut [u16], setup: &[u8]) -> Result<(), Refusal> {
    Refusal::check(raw::world_make(world, setup))
}

/// The FIFO or the causal log of a process, as a part of the world. Refusals 1, 2, 5.
pub fn log(world: &[u16], process: u32, causal: bool) -> Result<&[u16], Refusal> {
    let (mut start, mut length) = (0, 0);
    Refusal::check(raw::world_log(world, process, causal, &mut start, &mut length))?;
    Ok(&world[start as usize..][..length as usize])
}

/// The order number of a message, 0 for no order. Refusals 1, 2, 7.
pub fn order(world: &[u16], message: u32) -> Result<u16, Refusal> {
    let mut number = 0;
    Refusal::check(raw::order(world, message, &mut number))?;
    Ok(u16::try_from(number).expect("an order number has 16 bits"))
}

/// What is awaited by a message that is in the FIFO log of a process and not in its causal log. In a world that steps
/// reached it is always a message, which precedes that one and is not in the causal log; the others are met only in
/// words that were edited or damaged and are still sound.
#[derive(Clone, Copy, Debug, PartialEq, Eq)]
pub enum Awaited {
    /// Nothing: the message is deliverable.
    Nothing,
    /// This message, whose sender is the process `of`.
    Message { of: u8, message: u8 },
    /// A message of the process `of`, and there is none that would be the next.
    Process { of: u8 },
}

/// Whose message is awaited at a process by a message. Refusals 1, 2, 5, 7, 18.
pub fn awaited(world: &[u16], process: u32, message: u32) -> Result<Awaited, Refusal> {
    let (mut kind, mut of, mut awaited) = (0, 0, 0);
    Refusal::check(raw::awaited(world, process, message, &mut kind, &mut of, &mut awaited))?;
    let [of, message] =
        [of, awaited].map(|number| u8::try_from(number).expect("a process or a message of the world"));
    match kind {
        0 => Ok(Awaited::Nothing),
        1 => Ok(Awaited::Message { of, message }),
        2 => Ok(Awaited::Process { of }),
        _ => panic!("the archive has three kinds of answers"),
    }
}

/// Which came first, for many pairs of messages.
#[derive(Clone, Debug, PartialEq, Eq)]
pub struct Precedence {
    /// Whether the first message precedes the second, pair by pair.
    pub answers: Vec<bool>,
    /// How many different messages the pairs name.
    pub different: u32,
}

/// Puts a byte for each pair of messages, two words each, into a second slice: 1 if the first precedes the second, else
/// 0; how many different messages the pairs name. Refusals 1, 2, 19 (pairs of odd length or of more than 512 words, or
/// answers of another length than the number of pairs), then 7.
pub fn precedes(world: &[u16], pairs: &[u16], answers: &mut [u8]) -> Result<u32, Refusal> {
    let mut different = 0;
    Refusal::check(raw::precedes(world, pairs, answers, &mut different))?;
    Ok(different)
}

/// Takes a step of 8 bytes. Refusals 1, 2, 4 to 12.
pub fn step(world: &mut [u16], step: &[u8]) -> Result<(), Refusal> {
    Refusal::check(raw::step(world, step))
}

/// How many FIFO and how many causal deliveries a step adds, those of all processes together.
#[derive(Clone, Copy, Debug, PartialEq, Eq)]
pub struct Previewed {
    pub fifo: u32,
    pub causal: u32,
}

/// Puts into a second slice, over whatever it holds, the words that the step would leave on a copy of the world.
/// Refusals 1 (of either slice), 2 (of the world), 4 to 12.
pub fn preview(world: &[u16], step: &[u8], second: &mut [u16]) -> Result<Previewed, Refusal> {
    let (mut fifo, mut causal) = (0, 0);
    Refusal::check(raw::preview(world, step, second, &mut fifo, &mut causal))?;
    Ok(Previewed { fifo, causal })
}

/// The number of arrivals that a settle made, and whether it is done or was stopped by its budget, with a letter left
/// whose receiver is up.
#[derive(Clone, Copy, Debug, PartialEq, Eq)]
pub struct Settled {
    pub arrivals: u32,
    pub done: bool,
}

/// Makes at most so many arrivals, each of the lowest letter whose receiver is up. Refusals 1, 2.
pub fn settle(world: &mut [u16], budget: u32) -> Result<Settled, Refusal> {
    let (mut arrivals, mut done) = (0, 0);
    Refusal::check(raw::settle(world, budget, &mut arrivals, &mut done))?;
    Ok(Settled { arrivals, done: done == 1 })
}

/// Makes at most so many arrivals, of letters whose receivers are up, at these in turn. Refusals 1, 2.
pub fn settle_fair(world: &mut [u16], budget: u32) -> Result<Settled, Refusal> {
    let (mut arrivals, mut done) = (0, 0);
    Refusal::check(raw::settle_fair(world, budget, &mut arrivals, &mut done))?;
    Ok(Settled { arrivals, done: done == 1 })
}

/// The number of records after the setup, and how many of these were refused.
#[derive(Clone, Copy, Debug, PartialEq, Eq)]
pub struct Replayed {
    pub steps: u32,
    pub refused: u32,
}

/// Replays a journal, over any words. Refusals 1, 13, block by block 14 and 15, then 3.
pub fn replay(world: &mut [u16], journal: &[u8]) -> Result<Replayed, Refusal> {
    let (mut steps, mut refused) = (0, 0);
    Refusal::check(raw::replay(world, journal, &mut steps, &mut refused))?;
    Ok(Replayed { steps, refused })
}
