//! What the marks mean.

use super::canvas::{Canvas, Point, ALARM, COLOURS, FAINT, INK};
use super::letters::manner;
use super::marks;
use super::places::Places;
use engine::LetterKind;

const CELL: i32 = 280;
const ROW: i32 = 26;

/// Draws a mark about this point.
type Mark = fn(&mut Canvas, Point);

const ITEMS: [(&str, Mark); 11] = [
    ("multicast of message 0", |canvas, at| marks::multicast(canvas, at, 0)),
    ("first letter, from the sender", |canvas, at| arrow(canvas, at, LetterKind::First)),
    ("relay, from an addressee", |canvas, at| arrow(canvas, at, LetterKind::Relay)),
    ("OK, from an addressee", |canvas, at| arrow(canvas, at, LetterKind::Ok)),
    ("letter lost", lost),
    ("letter in flight at the end", in_flight),
    ("FIFO delivery of message 0", |canvas, at| marks::fifo(canvas, at, 0)),
    ("causal delivery of message 0", |canvas, at| marks::causal(canvas, at, 0)),
    ("waits for one that precedes it", |canvas, (x, y)| marks::band(canvas, (x - 18.0, y), x + 18.0, 0)),
    ("crash", |canvas, at| canvas.cross(at, 7.0, ALARM, 3.5)),
    ("trust set replaced", marks::trust),
];

/// Draws the legend and gives the height of the whole picture.
pub fn draw(canvas: &mut Canvas, places: &Places) -> i32 {
    let top = places.bottom();
    let columns = ((places.width - 20) / CELL).max(1);
    let width = f64::from(places.width);
    canvas.line(
        (12.0, f64::from(top) - 8.0),
        (width - 12.0, f64::from(top) - 8.0),
        FAINT,
        "stroke-width=\"1\"",
    );
    for (i, (words, mark)) in ITEMS.iter().enumerate() {
        let (column, row) = (i as i32 % columns, i as i32 / columns);
        let (x, y) = (f64::from(20 + column * CELL), f64::from(top + 14 + row * ROW));
        mark(canvas, (x + 20.0, y));
        canvas.text((x + 50.0, y + 4.0), INK, "", words);
    }
    let rows = (ITEMS.len() as i32 + columns - 1) / columns;
    top + 14 + rows * ROW
}

fn arrow(canvas: &mut Canvas, at: Point, kind: LetterKind) {
    let style = manner(kind).to_string() + " marker-end=\"url(#tip0)\"";
    canvas.line((at.0 - 20.0, at.1), (at.0 + 20.0, at.1), COLOURS[0], &style);
}

fn lost(canvas: &mut Canvas, at: Point) {
    canvas.line((at.0 - 20.0, at.1), (at.0 + 12.0, at.1), COLOURS[0], manner(LetterKind::First));
    canvas.cross((at.0 + 12.0, at.1), 5.0, ALARM, 2.4);
}

fn in_flight(canvas: &mut Canvas, at: Point) {
    canvas.line((at.0 - 20.0, at.1), (at.0 + 12.0, at.1), COLOURS[0], manner(LetterKind::First));
    canvas.circle((at.0 + 12.0, at.1), 4.0, "white", COLOURS[0]);
}
