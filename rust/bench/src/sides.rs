//! The two sides: the archive and the second implementation, each call in a function of its own whose instructions can
//! be counted (wt_.. in the archive, reference_.. here).

use reference::awaited::Awaited;
use reference::{calls, journal, sound};

extern "C" {
    fn wt_bench_sound(words: *const u16, length: usize) -> u32;
    fn wt_bench_deliverable(words: *const u16, length: usize, process: usize, message: usize) -> u32;
}

/// The last message of a full world.
const LAST: usize = 63;

/// The calls that the cases are about. Each is given what it takes, and must not be refused.
pub struct Side {
    pub sound: fn(&[u16]),
    /// Whether the last message is deliverable at process 0.
    pub deliverable: fn(&[u16]) -> bool,
    pub make: fn(&mut [u16], &[u8]),
    pub log: fn(&[u16]) -> usize,
    /// The order number of the last message.
    pub order: fn(&[u16]) -> u16,
    /// The process and the message that the last message awaits at process 0.
    pub awaited: fn(&[u16]) -> (usize, usize),
    /// The number of different messages in the pairs.
    pub precedes: fn(&[u16], &[u16], &mut [u8]) -> u32,
    pub step: fn(&mut [u16], &[u8]),
    /// The numbers of FIFO and causal deliveries.
    pub preview: fn(&[u16], &[u8], &mut [u16]) -> (u32, u32),
    pub settle: fn(&mut [u16]) -> u32,
    pub settle_fair: fn(&mut [u16]) -> u32,
    pub count: fn(&[u8]) -> usize,
    pub read: fn(&[u8], &mut [u8]),
    pub write: fn(&[u8], &mut [u8]),
    pub replay: fn(&mut [u16], &[u8]) -> u32,
}

pub const ARCHIVE: Side = Side {
    sound: archive_sound,
    deliverable: archive_deliverable,
    make: |words, setup| engine::world::make(words, setup).expect("a good setup"),
    log: |words| engine::world::log(words, 0, true).expect("a sound world").len(),
    order: |words| engine::world::order(words, LAST as u32).expect("a full world"),
    awaited: |words| match engine::world::awaited(words, 0, LAST as u32) {
        Ok(engine::Awaited::Message { of, message }) => (of.into(), message.into()),
        other => panic!("a message is awaited: {other:?}"),
    },
    precedes: |words, pairs, answers| {
        engine::world::precedes(words, pairs, answers).expect("pairs of messages")
    },
    step: |words, step| {
        let _ = engine::world::step(words, step);
    },
    preview: |words, step, second| {
        let adds = engine::world::preview(words, step, second).expect("a step that is taken");
        (adds.fifo, adds.causal)
    },
    settle: |words| engine::world::settle(words, u32::MAX).expect("a sound world").arrivals,
    settle_fair: |words| engine::world::settle_fair(words, u32::MAX).expect("a sound world").arrivals,
    count: |bytes| engine::journal::count(bytes).expect("a good journal"),
    read: |bytes, records| engine::journal::read(bytes, records).expect("a good journal"),
    write: |records, bytes| engine::journal::write(records, bytes).expect("a good length"),
    replay: |words, bytes| engine::world::replay(words, bytes).expect("a good journal").steps,
};

pub const REFERENCE: Side = Side {
    sound: reference_sound,
    deliverable: reference_deliverable,
    make: reference_make,
    log: reference_log,
    order: reference_order,
    awaited: reference_awaited,
    precedes: reference_precedes,
    step: reference_step,
    preview: reference_preview,
    settle: reference_settle,
    settle_fair: reference_settle_fair,
    count: reference_count,
    read: reference_read,
    write: reference_write,
    replay: reference_replay,
};

/// A pointer to live words with their length, which the archive only reads.
fn archive_sound(words: &[u16]) {
    let answer = unsafe { wt_bench_sound(words.as_ptr(), words.len()) };
    assert_eq!(answer, 0, "the world is sound");
}

/// The same.
fn archive_deliverable(words: &[u16]) -> bool {
    unsafe { wt_bench_deliverable(words.as_ptr(), words.len(), 0, LAST) == 1 }
}

#[no_mangle]
#[inline(never)]
pub fn reference_sound(words: &[u16]) {
    sound::read(words).expect("a sound world");
}

#[no_mangle]
#[inline(never)]
pub fn reference_deliverable(words: &[u16]) -> bool {
    sound::read(words).expect("a sound world").deliverable(0, LAST) == Awaited::Nothing
}

#[no_mangle]
#[inline(never)]
pub fn reference_make(words: &mut [u16], setup: &[u8]) {
    calls::make(words, setup).expect("a good setup");
}

#[no_mangle]
#[inline(never)]
pub fn reference_log(words: &[u16]) -> usize {
    calls::log(words, 0, true).expect("a sound world").len()
}

#[no_mangle]
#[inline(never)]
pub fn reference_order(words: &[u16]) -> u16 {
    calls::order(words, LAST).expect("a full world")
}

#[no_mangle]
#[inline(never)]
pub fn reference_awaited(words: &[u16]) -> (usize, usize) {
    match calls::awaited(words, 0, LAST) {
        Ok(Awaited::Message { of, message }) => (of, message),
        other => panic!("a message is awaited: {other:?}"),
    }
}

#[no_mangle]
#[inline(never)]
pub fn reference_precedes(words: &[u16], pairs: &[u16], answers: &mut [u8]) -> u32 {
    calls::precedes(words, pairs, answers).expect("pairs of messages")
}

/// A copy by memcpy, which the mark of a preview has in it.
#[no_mangle]
#[inline(never)]
pub fn reference_copy(words: &[u16], to: &mut [u16]) {
    to.copy_from_slice(words);
}

#[no_mangle]
#[inline(never)]
pub fn reference_step(words: &mut [u16], step: &[u8]) {
    let _ = calls::step(words, step);
}

#[no_mangle]
#[inline(never)]
pub fn reference_preview(words: &[u16], step: &[u8], second: &mut [u16]) -> (u32, u32) {
    let adds = calls::preview(words, step, second).expect("a step that is taken");
    (adds.fifo, adds.causal)
}

#[no_mangle]
#[inline(never)]
pub fn reference_settle(words: &mut [u16]) -> u32 {
    calls::settle(words, u32::MAX).expect("a sound world").arrivals
}

#[no_mangle]
#[inline(never)]
pub fn reference_settle_fair(words: &mut [u16]) -> u32 {
    calls::settle_fair(words, u32::MAX).expect("a sound world").arrivals
}

#[no_mangle]
#[inline(never)]
pub fn reference_count(bytes: &[u8]) -> usize {
    journal::count(bytes).expect("a good journal")
}

#[no_mangle]
#[inline(never)]
pub fn reference_read(bytes: &[u8], records: &mut [u8]) {
    journal::read(bytes, records).expect("a good journal");
}

#[no_mangle]
#[inline(never)]
pub fn reference_write(records: &[u8], bytes: &mut [u8]) {
    journal::write(records, bytes).expect("a good length");
}

#[no_mangle]
#[inline(never)]
pub fn reference_replay(words: &mut [u16], bytes: &[u8]) -> u32 {
    calls::replay(words, bytes).expect("a good journal").0
}
