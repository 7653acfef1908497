//! What stands on the lines of processes.

use super::canvas::{colour, Canvas, Point, ALARM, BOLD_MIDDLE, FAINT, GREY, HALO, INK, SMALL_MIDDLE};
use super::places::{caption, end_words, Places, WORDS};
use crate::names::Names;
use crate::run::{Run, What};

/// The records of the journal, over the columns that they lead to.
pub fn time(canvas: &mut Canvas, run: &Run, places: &Places) {
    canvas.text((12.0, 24.0), GREY, "font-size=\"11\"", "record");
    let mut last = 0;
    for (i, moment) in run.moments.iter().enumerate() {
        if moment.record == last {
            continue;
        }
        last = moment.record;
        let x = places.x(i);
        canvas.text((x, 24.0), GREY, SMALL_MIDDLE, &moment.record.to_string());
        if let What::Refused { .. } = moment.what {
            caption(moment.what).iter().for_each(|words| canvas.text((x, 40.0), ALARM, SMALL_MIDDLE, words));
        } else {
            canvas.line((x, 30.0), (x, f64::from(places.bottom()) - 20.0), FAINT, "stroke-width=\"1\"");
        }
    }
}

/// The line of each process: solid while it is up.
pub fn lines(canvas: &mut Canvas, run: &Run, names: &Names, places: &Places) {
    for (process, group) in run.groups.iter().enumerate() {
        let process = process as u8;
        let y = places.y(process);
        canvas.text((12.0, y - 2.0), INK, "font-weight=\"bold\"", &names.label(process));
        canvas.text((12.0, y + 13.0), GREY, "", &format!("group {group}"));
        let crash = run.moments.iter().position(|m| m.process == process && m.what == What::Crash);
        let down = crash.map_or(places.end, |moment| places.x(moment));
        canvas.line((places.start, y), (down, y), INK, "stroke-width=\"1.6\"");
        if crash.is_some() {
            canvas.line((down, y), (places.end, y), GREY, "stroke-width=\"1.2\" stroke-dasharray=\"2 6\"");
        }
    }
}

/// A band over the line while a message waits.
pub fn waits(canvas: &mut Canvas, places: &Places) {
    for wait in &places.waits {
        let y = places.band(wait);
        let line = places.y(wait.process);
        band(canvas, (wait.from, y), wait.to, wait.message);
        canvas.line((wait.from, line), (wait.from, y), colour(wait.message), "stroke-width=\"1.2\"");
        if !wait.still {
            canvas.line((wait.to, line), (wait.to, y), colour(wait.message), "stroke-width=\"1.2\"");
        }
        let words = if wait.to - wait.from < 64.0 { "" } else { " waits" };
        let at = (wait.from + 14.0, y + 3.5);
        canvas.text(at, colour(wait.message), "font-size=\"10\"", &format!("{}{words}", wait.message));
    }
}

pub fn band(canvas: &mut Canvas, from: Point, to: f64, message: u8) {
    canvas.line(from, (to, from.1), colour(message), "stroke-width=\"11\" stroke-opacity=\"0.25\"");
}

pub fn moments(canvas: &mut Canvas, run: &Run, places: &Places) {
    for (i, moment) in run.moments.iter().enumerate() {
        let at = places.at(i, moment.process);
        match moment.what {
            What::Multicast { message, .. } => multicast(canvas, at, message),
            What::Arrival => canvas.circle(at, 3.0, INK, INK),
            What::Loss => {}
            What::Refused { .. } => continue,
            What::Trust { .. } => trust(canvas, at),
            What::Crash => canvas.cross(at, 8.0, ALARM, 3.5),
            What::Fifo { message } => fifo(canvas, at, message),
            What::Causal { message } => causal(canvas, at, message),
        }
        let style = format!("{SMALL_MIDDLE} {HALO}");
        for (line, words) in caption(moment.what).iter().enumerate() {
            canvas.text(places.over(at, moment.process, line), INK, &style, words);
        }
    }
}

pub fn multicast(canvas: &mut Canvas, at: Point, message: u8) {
    canvas.circle(at, 11.0, colour(message), colour(message));
    canvas.text((at.0, at.1 + 4.0), "white", BOLD_MIDDLE, &message.to_string());
}

pub fn fifo(canvas: &mut Canvas, at: Point, message: u8) {
    canvas.rectangle(at, (22.0, 20.0), "white", colour(message));
    canvas.text((at.0, at.1 + 4.0), colour(message), BOLD_MIDDLE, &message.to_string());
}

pub fn causal(canvas: &mut Canvas, at: Point, message: u8) {
    canvas.rectangle(at, (22.0, 20.0), colour(message), colour(message));
    canvas.text((at.0, at.1 + 4.0), "white", BOLD_MIDDLE, &message.to_string());
}

pub fn trust(canvas: &mut Canvas, at: Point) {
    let (x, y) = at;
    let commands = format!("M{x:.1} {:.1} l7 7 l-7 7 l-7 -7z", y - 7.0);
    canvas.path(&commands, INK, "style=\"fill:white\" stroke-width=\"1.6\"");
}

/// The logs of each process at the end, and what waits.
pub fn ends(canvas: &mut Canvas, run: &Run, places: &Places) {
    for process in 0..run.groups.len() as u8 {
        for (i, words) in end_words(run, process).iter().enumerate() {
            let at = (places.end + 14.0, places.y(process) - 4.0 + f64::from(WORDS) * i as f64);
            canvas.text(at, if i < 2 { INK } else { ALARM }, "", words);
        }
    }
}
