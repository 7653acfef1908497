//! Document 01, "Precedence, trust rule, settle", as card 4 of document 02 amends it: arrivals of letters whose
//! receivers are up, from origins up or down, within a budget. The lowest letter is first, or, as card 7 has it,
//! processes are served in turn.

use crate::world::{Letter, World};

#[derive(Clone, Copy, Debug, PartialEq, Eq)]
pub struct Settled {
    pub arrivals: u32,
    /// Done, or else stopped: the budget is used and a letter whose receiver is up remains.
    pub done: bool,
}

impl World {
    /// The settle of card 4: the lowest letter first.
    pub fn settle(&mut self, budget: u32) -> Settled {
        self.settle_by(budget, |world, _| world.lowest_letter(|_| true))
    }

    /// The settle of card 7: processes in turn, from process 0 on.
    pub fn settle_fair(&mut self, budget: u32) -> Settled {
        self.settle_by(budget, World::letter_in_turn)
    }

    /// Makes arrivals of the letters that are chosen, until none is. The choice is told where the last arrival was; at
    /// first there is none.
    pub fn settle_by(
        &mut self,
        budget: u32,
        mut choose: impl FnMut(&World, Option<usize>) -> Option<Letter>,
    ) -> Settled {
        let mut arrivals = 0;
        let mut last = None;
        while let Some(letter) = choose(self, last) {
            if arrivals == budget {
                return Settled { arrivals, done: false };
            }
            self.arrival(letter).expect("a letter in flight to an up process");
            arrivals += 1;
            last = Some(letter.to);
        }
        Settled { arrivals, done: true }
    }

    /// After an arrival at p, the lowest letter to the first process that has one among p + 1 and on, then 0 and on, p
    /// itself coming last.
    pub fn letter_in_turn(&self, last: Option<usize>) -> Option<Letter> {
        let first = last.map_or(0, |p| p + 1);
        let mut turns = (first..self.processes.len()).chain(0..first);
        turns.find_map(|p| self.lowest_letter(|to| to == p))
    }

    /// The lowest letter in flight to such a process that is up.
    fn lowest_letter(&self, to: impl Fn(usize) -> bool) -> Option<Letter> {
        self.flight.iter().copied().find(|letter| to(letter.to) && self.processes[letter.to].up)
    }
}
