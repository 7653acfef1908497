//! Where things stand: a column for each moment, a line for each process, and room for messages that wait.

use super::canvas::Point;
use crate::names::Names;
use crate::numbers::{list, members};
use crate::run::{Moment, Run, What};
use engine::Refusal;

/// What is left of the lines, at least.
const LEFT: i32 = 104;
const TOP: i32 = 96;
const LINE: i32 = 92;
/// The height of a band over a line, and of a line of words there.
const BAND: i32 = 13;
/// The height of a line of words right of the end.
pub const WORDS: i32 = 16;
const LEAST_WIDTH: i32 = 860;

/// A message that waits at a process, from its FIFO delivery to its causal one or to the end.
#[derive(Clone, Copy)]
pub struct Wait {
    pub process: u8,
    pub message: u8,
    pub from: f64,
    pub to: f64,
    /// Whether it is not delivered in the end.
    pub still: bool,
    /// How far above the line: waits at the same time stand above each other.
    pub row: usize,
}

pub struct Places {
    /// The middle of each moment's column.
    columns: Vec<f64>,
    /// The distance of two lines, that of the first one from the top, and that of the last one from the legend.
    line: i32,
    top: i32,
    below: i32,
    lines: i32,
    /// Where time begins and ends.
    pub start: f64,
    pub end: f64,
    pub waits: Vec<Wait>,
    pub width: i32,
}

impl Places {
    pub fn of(run: &Run, names: &Names) -> Places {
        let start = start(names);
        let mut columns = Vec::new();
        let mut x = start + 12;
        for moment in &run.moments {
            let width = column_width(moment);
            columns.push(f64::from(x) + f64::from(width) / 2.0);
            x += width;
        }
        let end = x + 24;
        let waits = waits(run, &columns, f64::from(end));
        let rows = waits.iter().map(|wait| wait.row as i32 + 1).max().unwrap_or(0);
        let width = (end + 20 + end_width(run)).max(LEAST_WIDTH);
        let lines = run.groups.len() as i32;
        let words = (0..lines).map(|p| end_words(run, p as u8).len() as i32).max().unwrap_or(0);
        let bands = BAND * (rows - 1).max(0);
        let line = (LINE + bands).max(WORDS * (words + 1));
        let (top, below) = (TOP + bands, (WORDS * words).max(56));
        let (start, end) = (f64::from(start), f64::from(end));
        Places { columns, line, top, below, lines, start, end, waits, width }
    }

    pub fn x(&self, moment: usize) -> f64 {
        self.columns[moment]
    }

    pub fn y(&self, process: u8) -> f64 {
        f64::from(self.top + i32::from(process) * self.line)
    }

    pub fn at(&self, moment: usize, process: u8) -> Point {
        (self.x(moment), self.y(process))
    }

    /// How high a message's band stands above the line.
    pub fn band(&self, wait: &Wait) -> f64 {
        self.y(wait.process) - 17.0 - f64::from(BAND) * wait.row as f64
    }

    /// Where a line of the words over a moment stands: above the bands that are there.
    pub fn over(&self, at: Point, process: u8, line: usize) -> Point {
        let here = |wait: &&Wait| wait.process == process && wait.from < at.0 && at.0 <= wait.to;
        let bands = self.waits.iter().filter(here).map(|wait| wait.row + 1).max().unwrap_or(0);
        (at.0, at.1 - 17.0 - f64::from(BAND) * (bands + line) as f64)
    }

    /// Where the diagram ends and the legend may begin.
    pub fn bottom(&self) -> i32 {
        self.top + (self.lines - 1) * self.line + self.below
    }
}

/// Where lines begin: right of the longest name.
fn start(names: &Names) -> i32 {
    let widths = names.labels().map(|label| label.chars().map(bold_width).sum());
    LEFT.max(12 + widths.max().unwrap_or(0) + 12)
}

/// No less than a bold character of a label takes.
fn bold_width(character: char) -> i32 {
    match character {
        'm' | 'w' | 'M' | 'W' | '@' | '%' => 14,
        'a'..='z' | '0'..='9' | ' ' => 9,
        '!'..='~' => 11,
        _ => 14,
    }
}

/// The words over a moment, the lowest line first: an order number stands over the groups.
pub fn caption(what: What) -> Vec<String> {
    match what {
        What::Multicast { groups, order, .. } => {
            let groups = format!("to {}", named("group", &members(groups.into())));
            if order == 0 {
                vec![groups]
            } else {
                vec![groups, format!("order {order}")]
            }
        }
        What::Trust { trusted } => vec![format!("trusts {}", list(&members(trusted)))],
        What::Crash => vec!["crash".to_string()],
        What::Refused { refusal } => vec![format!("refused {}", refusal.number())],
        _ => Vec::new(),
    }
}

/// One number with its name, or several with its plural.
fn named(name: &str, numbers: &[u8]) -> String {
    format!("{name}{} {}", if numbers.len() == 1 { "" } else { "s" }, list(numbers))
}

fn column_width(moment: &Moment) -> i32 {
    let least = match moment.what {
        What::Fifo { .. } | What::Causal { .. } => 27,
        What::Arrival => 36,
        _ => 48,
    };
    let longest = caption(moment.what).iter().map(|words| words.len()).max();
    least.max(7 * longest.unwrap_or(0) as i32 + 12)
}

/// The width of what stands right of the end.
fn end_width(run: &Run) -> i32 {
    let longest = (0..run.groups.len()).flat_map(|p| end_words(run, p as u8)).map(|words| words.len()).max();
    8 * longest.unwrap_or(0) as i32
}

/// What stands right of the end of a process's line: its logs, and what waits.
pub fn end_words(run: &Run, process: u8) -> Vec<String> {
    let items = |log: Result<&[u16], Refusal>| {
        let items: Vec<u8> =
            log.expect("a process of the run").iter().map(|&message| message as u8).collect();
        if items.is_empty() {
            "empty".to_string()
        } else {
            list(&items)
        }
    };
    let fifo = format!("FIFO log {}", items(run.world.fifo_log(process)));
    let causal = format!("causal log {}", items(run.world.causal_log(process)));
    let mut all = vec![fifo, causal];
    for wait in run.waiting.iter().filter(|wait| wait.process == process) {
        all.push(format!("{} waits for {}", wait.message, list(&wait.for_messages)));
    }
    all
}

/// The messages that wait: those with another moment between their FIFO and causal deliveries, and those at the end.
fn waits(run: &Run, columns: &[f64], end: f64) -> Vec<Wait> {
    let mut waits: Vec<Wait> = Vec::new();
    for (i, moment) in run.moments.iter().enumerate() {
        let message = match moment.what {
            What::Fifo { message } => message,
            _ => continue,
        };
        let process = moment.process;
        let later = |what: What| {
            run.moments[i..]
                .iter()
                .position(|m| m.process == process && m.what == what)
                .map(|offset| i + offset)
        };
        let (to, still) = match later(What::Causal { message }) {
            Some(delivered) if delivered == i + 1 => continue,
            Some(delivered) => (columns[delivered], false),
            None => (later(What::Crash).map_or(end, |crash| columns[crash]), true),
        };
        let mut wait = Wait { process, message, from: columns[i], to, still, row: 0 };
        let beside =
            |row: usize| waits.iter().any(|w| w.process == process && w.row == row && w.to > wait.from);
        wait.row = (0..).find(|&row| !beside(row)).expect("rows without end");
        waits.push(wait);
    }
    waits
}
