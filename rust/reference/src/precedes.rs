//! Document 02, card 6: which of two messages came first, for many pairs.

use crate::world::World;
use crate::Refusal;
use std::collections::BTreeSet;

/// The most pairs of one call.
pub const PAIRS: usize = 256;

impl World {
    /// Answers each pair of messages with a byte, 1 if the first precedes the second, else 0; the number of different
    /// messages in the pairs. Refusals 19, 7.
    pub fn precedes(&self, pairs: &[u16], answers: &mut [u8]) -> Result<u32, Refusal> {
        if pairs.len() % 2 != 0 || pairs.len() > 2 * PAIRS || answers.len() != pairs.len() / 2 {
            return Err(Refusal::PairsLength);
        }
        let named: Vec<usize> = pairs.iter().map(|&word| usize::from(word)).collect();
        if named.iter().any(|&message| message >= self.messages.len()) {
            return Err(Refusal::NoMessage);
        }
        for (answer, pair) in answers.iter_mut().zip(named.chunks(2)) {
            *answer = u8::from(self.came_first(pair[0], pair[1]));
        }
        Ok(named.into_iter().collect::<BTreeSet<_>>().len() as u32)
    }

    /// With q the sender of the first and g the lowest of its groups: C[g][q] of the first is at most that of the
    /// second, and the two differ.
    pub fn came_first(&self, first: usize, second: usize) -> bool {
        let (one, other) = (&self.messages[first], &self.messages[second]);
        let lowest = one.groups.iter().position(|&addressed| addressed).expect("a message to a group");
        one.counters[lowest][one.sender] <= other.counters[lowest][one.sender] && first != second
    }
}
