//! Letters: a line from the sending to the end, in the colour of the message and in the manner of the letter's kind.

use super::canvas::{colour, point, tint, Canvas, Point, ALARM, BOLD_MIDDLE, HALO};
use super::places::Places;
use crate::run::{End, Flight, Run, What};
use engine::LetterKind;

/// How far from the receiver's line a letter stays that does not arrive.
const SHORT: f64 = 32.0;

/// The manner of a kind: width, dashes.
pub fn manner(kind: LetterKind) -> &'static str {
    match kind {
        LetterKind::First => "stroke-width=\"2\"",
        LetterKind::Relay => "stroke-width=\"1.8\" stroke-dasharray=\"8 4\"",
        LetterKind::Ok => "stroke-width=\"2\" stroke-dasharray=\"0.5 4\" stroke-linecap=\"round\"",
    }
}

pub fn draw(canvas: &mut Canvas, run: &Run, places: &Places) {
    for flight in &run.flights {
        let path = Path::of(flight, run, places);
        let letter = flight.letter;
        let tip = match flight.end {
            End::Arrived(_) => format!(" marker-end=\"url(#tip{})\"", tint(letter.message)),
            End::Lost(_) => String::new(),
            End::InFlight => " stroke-opacity=\"0.6\"".to_string(),
        };
        let style = manner(letter.kind).to_string() + &tip;
        canvas.path(&path.commands, colour(letter.message), &style);
        match flight.end {
            End::Arrived(_) => {}
            End::Lost(_) => canvas.cross(path.to, 5.0, ALARM, 2.4),
            End::InFlight => canvas.circle(path.to, 4.0, "white", colour(letter.message)),
        }
        let style = format!("{BOLD_MIDDLE} font-size=\"10\" {HALO}");
        canvas.text(path.label, colour(letter.message), &style, &letter.message.to_string());
    }
}

/// The line of a letter: its commands, where it ends, and where its message's number stands.
struct Path {
    commands: String,
    to: Point,
    label: Point,
}

impl Path {
    fn of(flight: &Flight, run: &Run, places: &Places) -> Path {
        let letter = flight.letter;
        let from = places.at(flight.sent, letter.from);
        let line = places.y(letter.to);
        let side = if line < from.1 { SHORT } else { -SHORT };
        let to = match flight.end {
            End::Arrived(moment) => (places.x(moment), line),
            End::Lost(moment) => (places.x(moment), line + side),
            End::InFlight => (places.end, line + side),
        };
        if letter.from == letter.to {
            return Path::to_itself(from, to, letter.message);
        }
        let is_multicast = matches!(run.moments[flight.sent].what, What::Multicast { .. });
        let start = toward(from, to, if is_multicast { 11.0 } else { 3.0 });
        let stop = if to.1 == line { toward(to, from, 4.0) } else { to };
        let share = if letter.kind == LetterKind::First { 0.38 } else { 0.55 };
        let middle = between(start, stop, share);
        let commands = format!("M{} L{}", point(start), point(stop));
        Path { commands, to: stop, label: (middle.0, middle.1 + 4.0) }
    }

    /// A letter of a process to itself: an arc below its line, which ends below it if the letter does not arrive.
    fn to_itself(from: Point, to: Point, message: u8) -> Path {
        let depth = 22.0 + 5.0 * f64::from(message % 4);
        let stop = (to.0 - 1.0, if to.1 == from.1 { to.1 + 4.0 } else { from.1 + 24.0 });
        let (first, second) = ((from.0 + 4.0, from.1 + depth), (to.0 - 6.0, from.1 + depth + 4.0));
        let commands = format!("M{} C{} {} {}", point(from), point(first), point(second), point(stop));
        Path { commands, to: stop, label: ((from.0 + to.0) / 2.0, from.1 + 0.75 * depth + 5.0) }
    }
}

/// The point so far from one on the way to the other.
fn toward(from: Point, to: Point, far: f64) -> Point {
    let (x, y) = (to.0 - from.0, to.1 - from.1);
    let length = (x * x + y * y).sqrt().max(1.0);
    between(from, to, (far / length).min(1.0))
}

fn between(from: Point, to: Point, share: f64) -> Point {
    (from.0 + share * (to.0 - from.0), from.1 + share * (to.1 - from.1))
}
