//! The refusals, by who causes them.

use std::error::Error;
use std::fmt;

/// Why a call was refused. A refusal changes nothing that was lent. Its value is its number.
///
/// ```
/// use engine::{Refusal, Step, World};
///
/// let mut world = World::new(&[0, 1])?;
/// let refusal = world.step(Step::crash(2)).unwrap_err();
/// assert_eq!(refusal, Refusal::Process);
/// assert_eq!(refusal.to_string(), "refusal 5: this world has no process of that number");
/// assert_eq!(refusal.text(), "whoever writes a step: process not below n");
/// # Ok::<(), Refusal>(())
/// ```
#[derive(Clone, Copy, Debug, PartialEq, Eq, Hash)]
pub enum Refusal {
    WorldLength = 1,
    NotSound = 2,
    Setup = 3,
    Form = 4,
    Process = 5,
    GroupMask = 6,
    Message = 7,
    TrustMask = 8,
    Down = 9,
    Full = 10,
    NotInFlight = 11,
    BothUp = 12,
    JournalLength = 13,
    Check = 14,
    Block = 15,
    RecordsLength = 16,
    OutputLength = 17,
    NotWaiting = 18,
    PairsLength = 19,
}

impl Refusal {
    /// All refusals, in the order of their numbers.
    pub const ALL: [Refusal; 19] = [
        Refusal::WorldLength,
        Refusal::NotSound,
        Refusal::Setup,
        Refusal::Form,
        Refusal::Process,
        Refusal::GroupMask,
        Refusal::Message,
        Refusal::TrustMask,
        Refusal::Down,
        Refusal::Full,
        Refusal::NotInFlight,
        Refusal::BothUp,
        Refusal::JournalLength,
        Refusal::Check,
        Refusal::Block,
        Refusal::RecordsLength,
        Refusal::OutputLength,
        Refusal::NotWaiting,
        Refusal::PairsLength,
    ];

    /// The answer of the archive: 0, or a refusal's number.
    pub(crate) fn check(answer: u32) -> Result<(), Refusal> {
        if answer == 0 {
            return Ok(());
        }
        let refusal = Refusal::ALL.iter().find(|refusal| refusal.number() == answer);
        Err(*refusal.expect("the archive answers 0 or the number of a refusal"))
    }

    pub fn number(self) -> u32 {
        self as u32
    }

    /// Who causes it, and how, for whoever looks it up: the words of document 01, and from 18 on of document 02.
    pub fn text(self) -> &'static str {
        match self {
            Refusal::WorldLength => "whoever lends storage: world not 20,480 words",
            Refusal::NotSound => "whoever lends storage: world not sound",
            Refusal::Setup => "whoever sets up: setup record not as above, or not 8 bytes",
            Refusal::Form => {
                "whoever writes a step: not 8 bytes, kind outside 1 to 5, letter kind above 2, unused byte not zero"
            }
            Refusal::Process => "whoever writes a step: process not below n",
            Refusal::GroupMask => "whoever writes a step: mask empty or naming an absent group",
            Refusal::Message => "whoever writes a step: message not below count",
            Refusal::TrustMask => "whoever writes a step: trust mask naming an absent process",
            Refusal::Down => {
                "the state of the mill: the process of a multicast, trust or crash step, or the receiver of an arrival, is down"
            }
            Refusal::Full => "the state of the mill: count is 64",
            Refusal::NotInFlight => "the state of the mill: letter not in flight",
            Refusal::BothUp => "the state of the mill: loss with both ends up",
            Refusal::JournalLength => "whoever carries a journal: length 0, over 65,536 or no multiple of 512",
            Refusal::Check => {
                "whoever carries a journal: check not exactly that number (FFFF does not stand for 0000)"
            }
            Refusal::Block => "whoever carries a journal: any other block rule",
            Refusal::RecordsLength => {
                "whoever writes one: records length 0, no multiple of 8, over 8,064 records"
            }
            Refusal::OutputLength => "whoever writes one: output length not what is needed",
            Refusal::NotWaiting => {
                "the state of the mill: message that isn't in that process's FIFO log or is already in its causal log"
            }
            Refusal::PairsLength => {
                "whoever lends storage: odd or over-long pair slice or an answer slice of another length than the number of pairs"
            }
        }
    }

    /// What was wrong, in a plain sentence for whoever sees it happen.
    pub fn sentence(self) -> &'static str {
        match self {
            Refusal::WorldLength => "the world that was lent is not 20,480 words long",
            Refusal::NotSound => "the words that were lent are not a world that this engine could have left",
            Refusal::Setup => {
                "the setup record is not one: 8 bytes, 1 to 16 processes, groups numbered from 0 without a gap"
            }
            Refusal::Form => {
                "these bytes are not a step: 8 bytes, a known kind of step and of letter, and zeros behind"
            }
            Refusal::Process => "this world has no process of that number",
            Refusal::GroupMask => "the message is to no group, or to one that this world does not have",
            Refusal::Message => "no message of that number has been multicast in this world",
            Refusal::TrustMask => "the trust set names a process that this world does not have",
            Refusal::Down => "that process has crashed, and sends, receives and trusts no more",
            Refusal::Full => "the world is full: 64 messages have been multicast in it",
            Refusal::NotInFlight => "that letter is not in flight: it was not sent, has arrived or was lost",
            Refusal::BothUp => "a letter between two processes that are up cannot be lost",
            Refusal::JournalLength => "a journal is 1 to 128 blocks of 512 bytes, and this one is not",
            Refusal::Check => "this block's checksum does not match its bytes",
            Refusal::Block => "this block's number, its count of records or a byte that must be zero is wrong",
            Refusal::RecordsLength => {
                "a journal is written of 1 to 8,064 records of 8 bytes, and these are not"
            }
            Refusal::OutputLength => "what was lent for the output is not just as long as the output",
            Refusal::NotWaiting => {
                "that message does not wait at that process: its FIFO log lacks it, or its causal log has it already"
            }
            Refusal::PairsLength => {
                "pairs are two words each, at most 256 pairs, with one answer byte for each, and these are not"
            }
        }
    }
}

impl fmt::Display for Refusal {
    fn fmt(&self, f: &mut fmt::Formatter<'_>) -> fmt::Result {
        write!(f, "refusal {}: {}", self.number(), self.sentence())
    }
}

impl Error for Refusal {}
