//! The functions of the archive. Each returns 0, or the number of a refusal that changed nothing that was lent.
//! A slice passes as its pointer and its length, a `&mut` number as its pointer.

#![allow(unsafe_code)]

use crate::version;

extern "C" {
    fn wt_version() -> u32;
    fn wt_journal_write(records: *const u8, records_length: usize, out: *mut u8, out_length: usize) -> u32;
    fn wt_journal_length(records_length: usize, length: *mut u32) -> u32;
    fn wt_journal_count(journal: *const u8, journal_length: usize, count: *mut u32) -> u32;
    fn wt_journal_read(
        journal: *const u8,
        journal_length: usize,
        records: *mut u8,
        records_length: usize,
    ) -> u32;
    fn wt_world_make(world: *mut u16, world_length: usize, setup: *const u8, setup_length: usize) -> u32;
    fn wt_world_log(
        world: *const u16,
        world_length: usize,
        process: u32,
        causal: bool,
        start: *mut u32,
        length: *mut u32,
    ) -> u32;
    fn wt_order(world: *const u16, world_length: usize, message: u32, number: *mut u32) -> u32;
    fn wt_awaited(
        world: *const u16,
        world_length: usize,
        process: u32,
        message: u32,
        kind: *mut u32,
        of: *mut u32,
        awaited: *mut u32,
    ) -> u32;
    fn wt_precedes(
        world: *const u16,
        world_length: usize,
        pairs: *const u16,
        pairs_length: usize,
        answers: *mut u8,
        answers_length: usize,
        different: *mut u32,
    ) -> u32;
    fn wt_step(world: *mut u16, world_length: usize, step: *const u8, step_length: usize) -> u32;
    fn wt_preview(
        world: *const u16,
        world_length: usize,
        step: *const u8,
        step_length: usize,
        second: *mut u16,
        second_length: usize,
        fifo: *mut u32,
        causal: *mut u32,
    ) -> u32;
    fn wt_settle(
        world: *mut u16,
        world_length: usize,
        budget: u32,
        arrivals: *mut u32,
        done: *mut u32,
    ) -> u32;
    fn wt_settle_fair(
        world: *mut u16,
        world_length: usize,
        budget: u32,
        arrivals: *mut u32,
        done: *mut u32,
    ) -> u32;
    fn wt_replay(
        world: *mut u16,
        world_length: usize,
        journal: *const u8,
        journal_length: usize,
        steps: *mut u32,
        refused: *mut u32,
    ) -> u32;
}

// Safe to call: each pointer comes from a live reference with its own length, and the archive's contracts hold
// for all inputs. That the archive has these functions is what its version says, which each call tests first.

pub fn version() -> u32 {
    unsafe { wt_version() }
}

pub fn journal_write(records: &[u8], out: &mut [u8]) -> u32 {
    version::test(version());
    unsafe { wt_journal_write(records.as_ptr(), records.len(), out.as_mut_ptr(), out.len()) }
}

pub fn journal_length(records_length: usize, length: &mut u32) -> u32 {
    version::test(version());
    unsafe { wt_journal_length(records_length, length) }
}

pub fn journal_count(journal: &[u8], count: &mut u32) -> u32 {
    version::test(version());
    unsafe { wt_journal_count(journal.as_ptr(), journal.len(), count) }
}

pub fn journal_read(journal: &[u8], records: &mut [u8]) -> u32 {
    version::test(version());
    unsafe { wt_journal_read(journal.as_ptr(), journal.len(), records.as_mut_ptr(), records.len()) }
}

pub fn world_make(world: &mut [u16], setup: &[u8]) -> u32 {
    version::test(version());
    unsafe { wt_world_make(world.as_mut_ptr(), world.len(), setup.as_ptr(), setup.len()) }
}

pub fn world_log(world: &[u16], process: u32, causal: bool, start: &mut u32, length: &mut u32) -> u32 {
    version::test(version());
    unsafe { wt_world_log(world.as_ptr(), world.len(), process, causal, start, length) }
}

pub fn order(world: &[u16], message: u32, number: &mut u32) -> u32 {
    version::test(version());
    unsafe { wt_order(world.as_ptr(), world.len(), message, number) }
}

pub fn awaited(
    world: &[u16],
    process: u32,
    message: u32,
    kind: &mut u32,
    of: &mut u32,
    awaited: &mut u32,
) -> u32 {
    version::test(version());
    unsafe { wt_awaited(world.as_ptr(), world.len(), process, message, kind, of, awaited) }
}

pub fn precedes(world: &[u16], pairs: &[u16], answers: &mut [u8], different: &mut u32) -> u32 {
    version::test(version());
    let (bytes, length) = (answers.as_mut_ptr(), answers.len());
    unsafe { wt_precedes(world.as_ptr(), world.len(), pairs.as_ptr(), pairs.len(), bytes, length, different) }
}

pub fn step(world: &mut [u16], step: &[u8]) -> u32 {
    version::test(version());
    unsafe { wt_step(world.as_mut_ptr(), world.len(), step.as_ptr(), step.len()) }
}

pub fn preview(world: &[u16], step: &[u8], second: &mut [u16], fifo: &mut u32, causal: &mut u32) -> u32 {
    version::test(version());
    let (words, length) = (second.as_mut_ptr(), second.len());
    unsafe { wt_preview(world.as_ptr(), world.len(), step.as_ptr(), step.len(), words, length, fifo, causal) }
}

pub fn settle(world: &mut [u16], budget: u32, arrivals: &mut u32, done: &mut u32) -> u32 {
    version::test(version());
    unsafe { wt_settle(world.as_mut_ptr(), world.len(), budget, arrivals, done) }
}

pub fn settle_fair(world: &mut [u16], budget: u32, arrivals: &mut u32, done: &mut u32) -> u32 {
    version::test(version());
    unsafe { wt_settle_fair(world.as_mut_ptr(), world.len(), budget, arrivals, done) }
}

pub fn replay(world: &mut [u16], journal: &[u8], steps: &mut u32, refused: &mut u32) -> u32 {
    version::test(version());
    unsafe { wt_replay(world.as_mut_ptr(), world.len(), journal.as_ptr(), journal.len(), steps, refused) }
}
