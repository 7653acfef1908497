//! The second implementation of document 01 and of cards 1, 2 and 4 to 7 of document 02, written from the papers for
//! clarity, to be held against the archive.

#![forbid(unsafe_code)]

pub mod awaited;
pub mod calls;
mod cascade;
pub mod journal;
pub mod precedes;
pub mod random;
pub mod record;
mod refusal;
pub mod replay;
pub mod sample;
pub mod settle;
pub mod sound;
mod step;
pub mod words;
pub mod world;

pub use refusal::Refusal;
