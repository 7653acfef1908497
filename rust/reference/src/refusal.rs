//! Document 01, "Refusals, by who causes them", and those of cards 5 and 6 of document 02.

/// A refusal; its value is its number. It changes nothing that was lent.
#[derive(Clone, Copy, Debug, PartialEq, Eq)]
pub enum Refusal {
    /// World not 20,480 words.
    WorldLength = 1,
    /// World not sound.
    NotSound = 2,
    /// Setup record not of its form, or not 8 bytes.
    Setup = 3,
    /// Step not 8 bytes, kind outside 1 to 5, letter kind above 2, unused byte not zero.
    Form = 4,
    /// Process not below n.
    NoProcess = 5,
    /// Mask empty or naming an absent group.
    GroupMask = 6,
    /// Message not below count.
    NoMessage = 7,
    /// Trust mask naming an absent process.
    TrustMask = 8,
    /// The process of a multicast, trust or crash step, or the receiver of an arrival, is down.
    Down = 9,
    /// Count is 64.
    Full = 10,
    /// Letter not in flight.
    NotInFlight = 11,
    /// Loss with both ends up.
    BothUp = 12,
    /// Journal length 0, over 65,536 or no multiple of 512.
    JournalLength = 13,
    /// Check not exactly the block's number.
    Check = 14,
    /// Any other block rule.
    Block = 15,
    /// Records length 0, no multiple of 8, over 8,064 records.
    RecordsLength = 16,
    /// Output length not what is needed.
    OutputLength = 17,
    /// Message not in the FIFO log of the process, or already in its causal log.
    NotWaiting = 18,
    /// Pairs of odd length or over-long, or answers of another length than the number of pairs.
    PairsLength = 19,
}

impl Refusal {
    pub fn number(self) -> u32 {
        self as u32
    }
}
