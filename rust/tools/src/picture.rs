//! The run of a journal as a space-time diagram in SVG: a line for each process, time from left to right.

mod canvas;
mod legend;
mod letters;
mod marks;
mod places;

use crate::names::Names;
use crate::run::Run;
use canvas::{Canvas, COLOURS};
use places::Places;

/// The picture of a run, its lines labelled with the names.
pub fn svg(run: &Run, names: &Names) -> String {
    let places = Places::of(run, names);
    let mut canvas = Canvas::new();
    marks::time(&mut canvas, run, &places);
    marks::lines(&mut canvas, run, names, &places);
    marks::waits(&mut canvas, &places);
    letters::draw(&mut canvas, run, &places);
    marks::moments(&mut canvas, run, &places);
    marks::ends(&mut canvas, run, &places);
    let height = legend::draw(&mut canvas, &places);
    whole(canvas, run, places.width, height)
}

/// The drawing, with what stands around it.
fn whole(canvas: Canvas, run: &Run, width: i32, height: i32) -> String {
    let mut svg = format!(
        "<svg xmlns=\"http://www.w3.org/2000/svg\" width=\"{width}\" height=\"{height}\" \
         viewBox=\"0 0 {width} {height}\" font-family=\"DejaVu Sans, Verdana, sans-serif\" font-size=\"12\">\n"
    );
    let (n, steps, refused) = (run.groups.len(), run.steps, run.refused);
    svg += &format!("<title>{n} processes, {steps} steps, {refused} refused</title>\n<defs>\n");
    for (number, colour) in COLOURS.iter().enumerate() {
        svg += &format!(
            "<marker id=\"tip{number}\" viewBox=\"0 0 8 8\" refX=\"7\" refY=\"4\" markerWidth=\"8\" markerHeight=\"8\" \
             markerUnits=\"userSpaceOnUse\" orient=\"auto\"><path d=\"M0 0.5L8 4L0 7.5z\" fill=\"{colour}\"/></marker>\n"
        );
    }
    svg += "</defs>\n<rect width=\"100%\" height=\"100%\" fill=\"white\"/>\n";
    svg + &canvas.into_elements() + "</svg>\n"
}
