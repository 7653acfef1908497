//! Runs the archive and the second implementation on the same random inputs and holds every answer and every
//! lent byte of one against the other's; and what the program `replay` prints, line for line.
//!
//! `compare [AREA] [COUNT] [SEED] [FIRST]`: COUNT inputs of each area or of the named one, from number FIRST on; an
//! input of many parts counts for several. An input depends on the seed and its number alone, so that one that shows
//! a difference is run again by `compare AREA 1 SEED NUMBER`.

#![forbid(unsafe_code)]

mod difference;
mod journal;
mod lent;
mod program;
mod tally;
mod world;

use difference::Difference;
use reference::random::Random;
use std::process::ExitCode;
use std::thread;
use std::time::Instant;
use tally::Tally;
use world::{awaited, fair, precedes, waiting};

/// A capability to compare.
struct Area {
    name: &'static str,
    /// Makes the input of this number and compares all calls on it.
    input: fn(u64, &mut Random, &mut Tally) -> Result<(), Difference>,
    /// Every call with the answers that it must have given by the end.
    answers: &'static [(&'static str, &'static [u32])],
    /// Sets of items with their number, all of which must have been tried by the end.
    cover: &'static [(&'static str, usize)],
    /// How many of the count one input is.
    weight: u64,
}

const AREAS: [Area; 11] = [
    Area { name: "journal", input: journal::input, answers: journal::ANSWERS, cover: &[], weight: 1 },
    Area { name: "world", input: world::input, answers: world::ANSWERS, cover: world::COVER, weight: 50 },
    Area {
        name: "step",
        input: world::steps,
        answers: world::STEP_ANSWERS,
        cover: world::STEP_COVER,
        weight: world::STEPS,
    },
    Area {
        name: "preview",
        input: world::previews,
        answers: world::PREVIEW_ANSWERS,
        cover: world::PREVIEW_COVER,
        weight: world::STEPS,
    },
    Area {
        name: "waiting",
        input: waiting::input,
        answers: waiting::ANSWERS,
        cover: waiting::COVER,
        weight: 100,
    },
    Area {
        name: "awaited",
        input: awaited::input,
        answers: awaited::ANSWERS,
        cover: awaited::COVER,
        weight: 50,
    },
    Area {
        name: "precedes",
        input: precedes::input,
        answers: precedes::ANSWERS,
        cover: precedes::COVER,
        weight: 50,
    },
    Area {
        name: "settle",
        input: world::settles,
        answers: world::SETTLE_ANSWERS,
        cover: world::SETTLE_COVER,
        weight: 100,
    },
    Area { name: "fair", input: fair::input, answers: fair::ANSWERS, cover: fair::COVER, weight: 200 },
    Area { name: "replay", input: world::replays, answers: world::REPLAY_ANSWERS, cover: &[], weight: 20 },
    Area { name: "program", input: program::input, answers: program::ANSWERS, cover: &[], weight: 200 },
];

/// The default: enough for every answer and every word of the layout to be tried.
const COUNT: u64 = 400_000;
const SEED: u64 = 1;

struct Range {
    area: Option<String>,
    count: u64,
    seed: u64,
    first: u64,
}

fn main() -> ExitCode {
    let range = match arguments() {
        Some(range) => range,
        None => {
            eprintln!("usage: compare [AREA] [COUNT] [SEED] [FIRST]");
            return ExitCode::from(2);
        }
    };
    let named = |area: &&Area| range.area.as_ref().map_or(true, |name| name == area.name);
    // The areas beside each other: a line names its own.
    let results: Vec<_> = thread::scope(|scope| {
        let runs: Vec<_> =
            AREAS.iter().filter(named).map(|area| (area.name, scope.spawn(|| run(area, &range)))).collect();
        runs.into_iter().map(|(name, run)| (name, run.join().expect("an area's thread"))).collect()
    });
    let mut inputs = 0;
    let mut failed = false;
    for (name, result) in results {
        match result {
            Ok(run) => inputs += run,
            Err(lines) => {
                lines.iter().for_each(|line| println!("compare: {name}: {line}"));
                failed = true;
            }
        }
    }
    if failed {
        return ExitCode::FAILURE;
    }
    println!("compare: {inputs} inputs, no difference");
    ExitCode::SUCCESS
}

fn arguments() -> Option<Range> {
    let mut arguments: Vec<String> = std::env::args().skip(1).collect();
    let mut area = None;
    if arguments.first().map_or(false, |word| AREAS.iter().any(|area| area.name == word)) {
        area = Some(arguments.remove(0));
    }
    let numbers = arguments.iter().map(|word| word.parse().ok()).collect::<Option<Vec<u64>>>()?;
    if numbers.len() > 3 {
        return None;
    }
    let given = |at: usize, default| numbers.get(at).copied().unwrap_or(default);
    Some(Range { area, count: given(0, COUNT), seed: given(1, SEED), first: given(2, 0) })
}

/// Compares the area on the inputs of the range: how many these were, or what is wrong.
fn run(area: &Area, range: &Range) -> Result<u64, Vec<String>> {
    let start = Instant::now();
    let mut tally = Tally::default();
    let inputs = (range.count / area.weight).max(1);
    for index in range.first..range.first + inputs {
        let mut random = Random::new(range.seed, index);
        if let Err(difference) = (area.input)(index, &mut random, &mut tally) {
            return Err(vec![format!("seed {}, input {index}: {difference}", range.seed)]);
        }
    }
    tally.print(area.name);
    let missing = tally.missing(area.answers, area.cover);
    if !missing.is_empty() {
        return Err(missing);
    }
    println!("{}: {inputs} inputs in {} s", area.name, start.elapsed().as_secs());
    Ok(inputs)
}
