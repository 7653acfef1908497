//! Records of 8 bytes: the setup and the five steps.

use crate::Refusal;

/// The bytes of a setup record, of a step, and of each record of a journal.
pub type Record = [u8; 8];

/// The most processes of a world.
pub const PROCESSES: usize = 16;
/// The most groups.
pub const GROUPS: usize = 8;
/// The most messages.
pub const MESSAGES: usize = 64;

/// Which processes there are: the group of each.
#[derive(Clone, Debug, PartialEq, Eq)]
pub struct Setup {
    groups: Vec<u8>,
}

impl Setup {
    /// Processes in these groups, the first that of process 0. Refusal 3 where these have no place in a record: no
    /// process, more than 16 of them, or a group above 7. A gap between groups is left to the making of a world.
    ///
    /// ```
    /// use engine::{Refusal, Setup};
    ///
    /// assert_eq!(Setup::new(&[0, 1, 2])?.record(), [0, 3, 0x88, 0, 0, 0, 0, 0]);
    /// assert_eq!(Setup::new(&[0; 17]), Err(Refusal::Setup));
    /// # Ok::<(), Refusal>(())
    /// ```
    pub fn new(groups: &[u8]) -> Result<Setup, Refusal> {
        let fits = groups.iter().all(|group| usize::from(*group) < GROUPS);
        if groups.is_empty() || groups.len() > PROCESSES || !fits {
            return Err(Refusal::Setup);
        }
        Ok(Setup { groups: groups.to_vec() })
    }

    /// The group of each process.
    pub fn groups(&self) -> &[u8] {
        &self.groups
    }

    /// 0, the number of processes, then 3 bits for the group of each, the lowest first.
    pub fn record(&self) -> Record {
        let mut bits = 0;
        for (i, group) in self.groups.iter().enumerate() {
            bits |= u64::from(*group) << (3 * i);
        }
        let low = bits.to_le_bytes();
        [0, self.groups.len() as u8, low[0], low[1], low[2], low[3], low[4], low[5]]
    }

    /// The setup that has this record; none for a record that is no setup's.
    pub fn from_record(record: &Record) -> Option<Setup> {
        let [kind, n, low @ ..] = *record;
        let mut bits = 0;
        for (i, byte) in low.iter().enumerate() {
            bits |= u64::from(*byte) << (8 * i);
        }
        let groups: Vec<u8> =
            (0..usize::from(n).min(PROCESSES)).map(|i| (bits >> (3 * i) & 7) as u8).collect();
        let setup = Setup::new(&groups).ok()?;
        (kind == 0 && setup.record() == *record).then_some(setup)
    }
}

/// The kind of a letter. Its value is its number.
#[derive(Clone, Copy, Debug, PartialEq, Eq, PartialOrd, Ord, Hash)]
pub enum LetterKind {
    /// Sent by the sender of the message.
    First = 0,
    /// Sent by an addressee for which the message is not the next of its sender.
    Relay = 1,
    /// Sent by an addressee for which the message is the next of its sender.
    Ok = 2,
}

impl LetterKind {
    /// All kinds, in the order of their numbers.
    pub const ALL: [LetterKind; 3] = [LetterKind::First, LetterKind::Relay, LetterKind::Ok];

    pub fn number(self) -> u8 {
        self as u8
    }
}

/// A letter carries a message from one process to one addressee. The order of letters is by message, kind, from, to.
#[derive(Clone, Copy, Debug, PartialEq, Eq, PartialOrd, Ord, Hash)]
pub struct Letter {
    pub message: u8,
    pub kind: LetterKind,
    pub from: u8,
    pub to: u8,
}

/// A step that is well formed; whether a world takes it is the world's to say.
#[derive(Clone, Copy, Debug, PartialEq, Eq, Hash)]
pub enum Step {
    /// Bit g of `groups` is set: group g is addressed. `order` is the order number, 0 for no order.
    Multicast {
        process: u8,
        groups: u8,
        order: u16,
    },
    Arrival(Letter),
    Loss(Letter),
    /// Bit q of `trusted` is set: process q is trusted.
    Trust {
        process: u8,
        trusted: u16,
    },
    Crash {
        process: u8,
    },
}

const MULTICAST: u8 = 1;
const ARRIVAL: u8 = 2;
const LOSS: u8 = 3;
const TRUST: u8 = 4;
const CRASH: u8 = 5;

impl Step {
    /// The process multicasts the next message to these groups, with no order. Refusal 6 for a group above 7, which no
    /// mask can name.
    pub fn multicast(process: u8, groups: &[u8]) -> Result<Step, Refusal> {
        Step::multicast_with_order(process, groups, 0)
    }

    /// The same with an order number; 0 means no order. Refusal 6.
    pub fn multicast_with_order(process: u8, groups: &[u8], order: u16) -> Result<Step, Refusal> {
        let mask = mask(groups, GROUPS).ok_or(Refusal::GroupMask)?;
        Ok(Step::Multicast { process, groups: mask as u8, order })
    }

    /// The letter arrives.
    pub fn arrival(kind: LetterKind, message: u8, from: u8, to: u8) -> Step {
        Step::Arrival(Letter { message, kind, from, to })
    }

    /// The letter is lost.
    pub fn loss(kind: LetterKind, message: u8, from: u8, to: u8) -> Step {
        Step::Loss(Letter { message, kind, from, to })
    }

    /// From now on the process trusts these and no others. Refusal 8 for a process above 15, which no mask can name.
    pub fn trust(process: u8, trusted: &[u8]) -> Result<Step, Refusal> {
        let trusted = mask(trusted, PROCESSES).ok_or(Refusal::TrustMask)?;
        Ok(Step::Trust { process, trusted })
    }

    /// The process crashes.
    pub fn crash(process: u8) -> Step {
        Step::Crash { process }
    }

    /// ```
    /// use engine::{LetterKind, Step};
    ///
    /// assert_eq!(Step::arrival(LetterKind::Ok, 5, 0, 3).record(), [2, 2, 5, 0, 3, 0, 0, 0]);
    /// assert_eq!(Step::multicast(1, &[0, 2])?.record(), [1, 1, 5, 0, 0, 0, 0, 0]);
    /// // The order number's low byte comes first: 1017 is 3 x 256 + 0xf9.
    /// assert_eq!(Step::multicast_with_order(1, &[0, 2], 1017)?.record(), [1, 1, 5, 0xf9, 3, 0, 0, 0]);
    /// # Ok::<(), engine::Refusal>(())
    /// ```
    pub fn record(self) -> Record {
        let letter = |step: u8, l: Letter| [step, l.kind.number(), l.message, l.from, l.to, 0, 0, 0];
        match self {
            Step::Multicast { process, groups, order } => {
                let [low, high] = order.to_le_bytes();
                [MULTICAST, process, groups, low, high, 0, 0, 0]
            }
            Step::Arrival(l) => letter(ARRIVAL, l),
            Step::Loss(l) => letter(LOSS, l),
            Step::Trust { process, trusted } => {
                let [low, high] = trusted.to_le_bytes();
                [TRUST, process, low, high, 0, 0, 0, 0]
            }
            Step::Crash { process } => [CRASH, process, 0, 0, 0, 0, 0, 0],
        }
    }

    /// The step that has this record; none for a record that every world refuses with 4.
    pub fn from_record(record: &Record) -> Option<Step> {
        let [step, a, b, c, d, ..] = *record;
        let letter = || {
            let kind = *LetterKind::ALL.get(usize::from(a))?;
            Some(Letter { message: b, kind, from: c, to: d })
        };
        let read = match step {
            MULTICAST => Step::Multicast { process: a, groups: b, order: u16::from_le_bytes([c, d]) },
            ARRIVAL => Step::Arrival(letter()?),
            LOSS => Step::Loss(letter()?),
            TRUST => Step::Trust { process: a, trusted: u16::from_le_bytes([b, c]) },
            CRASH => Step::Crash { process: a },
            _ => return None,
        };
        (read.record() == *record).then_some(read)
    }
}

/// The mask of these numbers; none if one of them is too large for a mask of so many bits.
fn mask(numbers: &[u8], bits: usize) -> Option<u16> {
    let mut mask = 0;
    for number in numbers {
        if usize::from(*number) >= bits {
            return None;
        }
        mask |= 1 << number;
    }
    Some(mask)
}
