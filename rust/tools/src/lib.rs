//! Tools for people, over the wrapper: a journal as text, the run of a journal as a picture, and whose messages are
//! awaited at its end.

#![forbid(unsafe_code)]

pub mod chain;
pub mod command;
pub mod names;
mod numbers;
pub mod picture;
pub mod run;
pub mod text;
