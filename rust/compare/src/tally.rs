//! How often each kind of input was made, and each answer of each call given.

use reference::Refusal;
use std::collections::{BTreeMap, BTreeSet};

#[derive(Default)]
pub struct Tally {
    kinds: BTreeMap<&'static str, Line>,
    calls: BTreeMap<&'static str, Line>,
    kind: &'static str,
    covered: BTreeMap<&'static str, BTreeSet<usize>>,
}

/// The count of inputs or calls, and of their answers by number.
#[derive(Default)]
struct Line {
    count: u64,
    answers: BTreeMap<u32, u64>,
}

impl Tally {
    /// Begins an input of this kind: the answers that follow are its own.
    pub fn input(&mut self, kind: &'static str) {
        self.kind = kind;
        self.kinds.entry(kind).or_default().count += 1;
    }

    pub fn answer(&mut self, call: &'static str, answer: u32) {
        let line = self.calls.entry(call).or_default();
        line.count += 1;
        *line.answers.entry(answer).or_default() += 1;
        let line = self.kinds.entry(self.kind).or_default();
        *line.answers.entry(answer).or_default() += 1;
    }

    /// Notes that this item of a number of them has been tried.
    pub fn cover(&mut self, items: &'static str, item: usize) {
        self.covered.entry(items).or_default().insert(item);
    }

    pub fn print(&self, area: &str) {
        for (kind, line) in &self.kinds {
            println!("{area}: {kind}: {} inputs; answers {}", line.count, line.text());
        }
        for (call, line) in &self.calls {
            println!("{area}: call {call}: {} times; answers {}", line.count, line.text());
        }
    }

    /// The answers that a call can give and never gave, and the items not all of which were tried.
    pub fn missing(
        &self,
        expected: &[(&'static str, &[u32])],
        cover: &[(&'static str, usize)],
    ) -> Vec<String> {
        let mut missing = Vec::new();
        for (call, answers) in expected {
            for answer in *answers {
                let given = self.calls.get(call).map_or(false, |line| line.answers.contains_key(answer));
                if !given {
                    missing.push(format!("call {call} never gave {answer}"));
                }
            }
        }
        for (items, number) in cover {
            let tried = self.covered.get(items).map_or(0, BTreeSet::len);
            if tried < *number {
                missing.push(format!("{items}: only {tried} of {number}"));
            }
        }
        missing
    }
}

/// 0, or the refusal's number.
pub fn number<T>(answer: &Result<T, Refusal>) -> u32 {
    match answer {
        Ok(_) => 0,
        Err(refusal) => refusal.number(),
    }
}

impl Line {
    fn text(&self) -> String {
        let items: Vec<String> =
            self.answers.iter().map(|(answer, times)| format!("{answer}: {times}")).collect();
        items.join(", ")
    }
}
