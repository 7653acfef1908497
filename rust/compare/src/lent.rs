//! A buffer to lend a part of: what stands around the part shows writes outside it.

use crate::difference::Difference;
use reference::random::Random;
use std::fmt::UpperHex;

/// What is lent: bytes or words.
pub trait Unit: Copy + PartialEq + UpperHex {
    fn any(random: &mut Random, length: usize) -> Vec<Self>;
}

impl Unit for u8 {
    fn any(random: &mut Random, length: usize) -> Vec<u8> {
        random.bytes(length)
    }
}

impl Unit for u16 {
    fn any(random: &mut Random, length: usize) -> Vec<u16> {
        random.bytes(2 * length).chunks(2).map(|pair| u16::from_le_bytes([pair[0], pair[1]])).collect()
    }
}

#[derive(Clone)]
pub struct Lent<T: Unit> {
    all: Vec<T>,
    start: usize,
    end: usize,
}

impl<T: Unit> Lent<T> {
    /// Room for a part of this length at any alignment, with random content in and around it.
    pub fn room(random: &mut Random, length: usize) -> Lent<T> {
        let start = random.between(16, 31);
        Lent { all: T::any(random, start + length + 16), start, end: start + length }
    }

    /// The given content, with random content around it.
    pub fn holding(random: &mut Random, content: &[T]) -> Lent<T> {
        let start = random.between(16, 31);
        let mut all = T::any(random, start);
        all.extend_from_slice(content);
        all.extend(T::any(random, 16));
        Lent { all, start, end: start + content.len() }
    }

    pub fn part(&self) -> &[T] {
        &self.all[self.start..self.end]
    }

    pub fn part_mut(&mut self) -> &mut [T] {
        &mut self.all[self.start..self.end]
    }

    /// Both buffers have the same content, in and around the part.
    pub fn same(&self, other: &Lent<T>, what: &str) -> Result<(), Difference> {
        if self.all == other.all {
            return Ok(());
        }
        let unlike = |at: &usize| self.all[*at] != other.all[*at];
        let at = (0..self.all.len()).find(unlike).expect("buffers of one length");
        Err(Difference(format!(
            "{what}: place {} of {}: {:X} and {:X}",
            at as isize - self.start as isize,
            self.end - self.start,
            self.all[at],
            other.all[at]
        )))
    }
}
