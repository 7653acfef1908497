//! Records of 8 bytes: the setup and the five steps.

use crate::world::Letter;

pub type Record = [u8; 8];

/// The setup of processes in these groups.
pub fn setup(groups: &[usize]) -> Record {
    let mut bits: u64 = 0;
    for (i, group) in groups.iter().enumerate() {
        bits |= (*group as u64) << (3 * i);
    }
    let low = bits.to_le_bytes();
    [0, groups.len() as u8, low[0], low[1], low[2], low[3], low[4], low[5]]
}

pub fn multicast(process: usize, groups: u8) -> Record {
    multicast_with_order(process, groups, 0)
}

pub fn multicast_with_order(process: usize, groups: u8, order: u16) -> Record {
    let [low, high] = order.to_le_bytes();
    [1, process as u8, groups, low, high, 0, 0, 0]
}

pub fn arrival(letter: Letter) -> Record {
    of_letter(2, letter)
}

pub fn loss(letter: Letter) -> Record {
    of_letter(3, letter)
}

pub fn trust(process: usize, trusted: u16) -> Record {
    let [low, high] = trusted.to_le_bytes();
    [4, process as u8, low, high, 0, 0, 0, 0]
}

pub fn crash(process: usize) -> Record {
    [5, process as u8, 0, 0, 0, 0, 0, 0]
}

fn of_letter(step: u8, letter: Letter) -> Record {
    [step, letter.kind as u8, letter.message as u8, letter.from as u8, letter.to as u8, 0, 0, 0]
}
