//! A safe wrapper over the proved archive libengine.a: the message engine with FIFO and causal multicast.
//!
//! [`World`] owns a world, and [`Step`] and [`Setup`] write its records; the modules [`world`] and [`journal`] have the
//! calls on what a caller lends. Every call takes any input and gives an answer or a [`Refusal`], which changes nothing.
//! The archive's functions as they are stand in [`raw`], the only file with unsafe code. A call panics if the archive is
//! not of the wrapper's [`VERSION`].
//!
//! What is left to you is the trust rule: wardrobeteal.h has it at its top, with what holds if it is kept. docs/WORDS.md
//! explains the words, docs/RUNNING.md how to build the engine into your software.
//!
//! ```
//! use engine::{Step, World, SETTLE_ALL};
//!
//! // The office is process 0 in group 0; the machines 1 and 2 are in group 1.
//! let mut mill = World::new(&[0, 1, 1])?;
//! mill.step(Step::multicast(0, &[1])?)?;
//! assert!(mill.settle(SETTLE_ALL).done);
//! assert_eq!(mill.causal_log(2)?, [0]);
//! # Ok::<(), engine::Refusal>(())
//! ```

#![deny(unsafe_code)]

pub mod journal;
mod layout;
pub mod raw;
mod record;
mod refusal;
mod version;
pub mod world;

pub use record::{Letter, LetterKind, Record, Setup, Step, GROUPS, MESSAGES, PROCESSES};
pub use refusal::Refusal;
pub use version::VERSION;
pub use world::{Awaited, Precedence, Previewed, Replayed, Settled, World, PAIRS, SETTLE_ALL, WORDS};
