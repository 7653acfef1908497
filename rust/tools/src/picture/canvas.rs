//! Elements of SVG.

/// A point.
pub type Point = (f64, f64);

/// The colours of messages, taken in turn.
pub const COLOURS: [&str; 8] =
    ["#1f5fa8", "#c4501b", "#2b7a2f", "#7a3e9d", "#8a6100", "#0b7a80", "#a82a5d", "#4a5560"];

pub const INK: &str = "#222222";
pub const GREY: &str = "#777777";
pub const FAINT: &str = "#dddddd";
pub const ALARM: &str = "#c00000";

/// The number of a message's colour.
pub fn tint(message: u8) -> usize {
    usize::from(message) % COLOURS.len()
}

pub fn colour(message: u8) -> &'static str {
    COLOURS[tint(message)]
}

pub struct Canvas {
    elements: String,
}

impl Canvas {
    pub fn new() -> Canvas {
        Canvas { elements: String::new() }
    }

    pub fn into_elements(self) -> String {
        self.elements
    }

    /// A line or a curve, by SVG's path commands.
    pub fn path(&mut self, commands: &str, stroke: &str, style: &str) {
        self.elements += &format!("<path d=\"{commands}\" fill=\"none\" stroke=\"{stroke}\" {style}/>\n");
    }

    pub fn line(&mut self, from: Point, to: Point, stroke: &str, style: &str) {
        self.path(&format!("M{} L{}", point(from), point(to)), stroke, style);
    }

    pub fn circle(&mut self, at: Point, radius: f64, fill: &str, stroke: &str) {
        let (x, y) = at;
        self.elements += &format!(
            "<circle cx=\"{x:.1}\" cy=\"{y:.1}\" r=\"{radius}\" fill=\"{fill}\" stroke=\"{stroke}\" stroke-width=\"1.6\"/>\n"
        );
    }

    /// A rectangle by its middle and its size.
    pub fn rectangle(&mut self, middle: Point, size: Point, fill: &str, stroke: &str) {
        let (x, y) = (middle.0 - size.0 / 2.0, middle.1 - size.1 / 2.0);
        let (width, height) = size;
        self.elements += &format!(
            "<rect x=\"{x:.1}\" y=\"{y:.1}\" width=\"{width:.1}\" height=\"{height:.1}\" rx=\"2\" fill=\"{fill}\" \
             stroke=\"{stroke}\" stroke-width=\"1.6\"/>\n"
        );
    }

    /// A cross by its middle.
    pub fn cross(&mut self, at: Point, arm: f64, stroke: &str, width: f64) {
        let (x, y) = at;
        let commands = format!(
            "M{} L{} M{} L{}",
            point((x - arm, y - arm)),
            point((x + arm, y + arm)),
            point((x - arm, y + arm)),
            point((x + arm, y - arm))
        );
        self.path(&commands, stroke, &format!("stroke-width=\"{width}\" stroke-linecap=\"round\""));
    }

    /// Text by the point where it starts, or by its middle if the style says so.
    pub fn text(&mut self, at: Point, fill: &str, style: &str, words: &str) {
        let (x, y) = at;
        let words = escaped(words);
        self.elements += &format!("<text x=\"{x:.1}\" y=\"{y:.1}\" fill=\"{fill}\" {style}>{words}</text>\n");
    }
}

/// Words as they stand in SVG.
fn escaped(words: &str) -> String {
    words.replace('&', "&amp;").replace('<', "&lt;").replace('>', "&gt;")
}

/// White about the letters, over what they cross.
pub const HALO: &str = "stroke=\"white\" stroke-width=\"3\" paint-order=\"stroke\"";
pub const SMALL_MIDDLE: &str = "text-anchor=\"middle\" font-size=\"11\"";
pub const BOLD_MIDDLE: &str = "text-anchor=\"middle\" font-weight=\"bold\"";

pub fn point(at: Point) -> String {
    format!("{:.1} {:.1}", at.0, at.1)
}
