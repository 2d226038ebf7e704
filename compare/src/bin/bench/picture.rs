//! Draws how cost grows, as an SVG of four diagrams with both axes logarithmic.

use crate::growth::{Diagram, Line};
use crate::work::Who;
use std::fmt::Write;

/// The size of a diagram's plane, and of the room around it.
const WIDE: f64 = 380.0;
const HIGH: f64 = 260.0;
const LEFT: f64 = 66.0;
const ABOVE: f64 = 40.0;
const BELOW: f64 = 52.0;
const BESIDE: f64 = 30.0;
/// The height of the legend above all of it.
const LEGEND: f64 = 58.0;

/// Colours for a light ground, and others for a dark one where that is asked for. Shapes tell the lines apart too.
const STYLE: &str = "
  .ground { fill: #ffffff; }
  text { fill: #1f2328; font: 12px system-ui, -apple-system, 'Segoe UI', Helvetica, Arial, sans-serif; }
  .title { font-size: 14px; font-weight: 600; }
  .rule { stroke: #d9dde2; stroke-width: 1; }
  .edge { stroke: #1f2328; stroke-width: 1; fill: none; }
  .library { color: #0b5cd6; }
  .rust { color: #c2410c; }
  .c { color: #17803d; }
  .memcpy { color: #6e7781; }
  .line { stroke: currentColor; stroke-width: 1.8; fill: none; }
  .spread { stroke: currentColor; stroke-width: 1; }
  .mark { stroke: currentColor; stroke-width: 1.4; fill: #ffffff; }
  .full { fill: currentColor; }
  .dashed { stroke-dasharray: 5 4; }
  @media (prefers-color-scheme: dark) {
    .ground { fill: #0d1117; }
    text { fill: #e6edf3; }
    .rule { stroke: #30363d; }
    .edge { stroke: #e6edf3; }
    .library { color: #6cb0ff; }
    .rust { color: #ff9b5e; }
    .c { color: #5fd38a; }
    .memcpy { color: #9198a1; }
    .mark { fill: #0d1117; }
    .full { fill: currentColor; }
  }
";

/// A logarithmic axis: its ends, and how far it goes.
struct Axis {
    low: f64,
    high: f64,
    length: f64,
}

impl Axis {
    /// How far along a number is.
    fn at(&self, number: f64) -> f64 {
        (number / self.low).ln() / (self.high / self.low).ln() * self.length
    }
}

/// The whole picture.
pub fn draw(diagrams: &[Diagram]) -> String {
    let (wide, high) = (LEFT + WIDE + BESIDE, ABOVE + HIGH + BELOW);
    let (width, height) = (2.0 * wide, LEGEND + 2.0 * high);
    let mut svg = format!(
        "<svg xmlns=\"http://www.w3.org/2000/svg\" viewBox=\"0 0 {width} {height}\" width=\"{width}\" \
         height=\"{height}\" role=\"img\">\n<title>How the cost of reading and blanking grows</title>\n\
         <style>{STYLE}</style>\n<rect class=\"ground\" width=\"{width}\" height=\"{height}\"/>\n"
    );
    legend(&mut svg);
    let (lowest, highest) = decades(diagrams);
    for (number, diagram) in diagrams.iter().enumerate() {
        let left = LEFT + wide * (number % 2) as f64;
        let top = LEGEND + ABOVE + high * (number / 2) as f64;
        let up = Axis { low: lowest, high: highest, length: HIGH };
        let _ = writeln!(svg, "<g transform=\"translate({left} {top})\">");
        plane(&mut svg, diagram, &up);
        svg += "</g>\n";
    }
    svg + "</svg>\n"
}

/// The powers of ten around all that is drawn.
fn decades(diagrams: &[Diagram]) -> (f64, f64) {
    let lines = diagrams.iter().flat_map(|diagram| &diagram.lines);
    let spreads = || lines.clone().flat_map(|line| &line.points).map(|(_, spread)| spread);
    let low = spreads().map(|spread| spread.lower).fold(f64::INFINITY, f64::min);
    let high = spreads().map(|spread| spread.upper).fold(0.0, f64::max);
    (10_f64.powf(low.log10().floor()), 10_f64.powf(high.log10().ceil()))
}

/// Who is who.
fn legend(svg: &mut String) {
    let entries =
        [(Who::Library, "library"), (Who::Rust, "reader in Rust"), (Who::C, "reader in C")];
    let entries = entries.into_iter().chain([(Who::Memcpy, "memcpy of the same bytes")]);
    for ((who, name), left) in entries.zip([LEFT, 180.0, 330.0, 470.0]) {
        let class = class(who);
        let _ = writeln!(svg, "<g class=\"{class}\" transform=\"translate({left} 22)\">");
        let _ = writeln!(svg, "<path class=\"line\" d=\"M0 0H30\"/>{}", mark(who, true, 15.0, 0.0));
        let _ = writeln!(svg, "<text x=\"38\" y=\"4\">{name}</text></g>");
    }
    let note =
        "One array: full lines are Booleans, each of which is judged, dashed lines bytes. Upright \
                strokes are quartiles.";
    let _ = writeln!(svg, "<text x=\"{LEFT}\" y=\"50\">{note}</text>");
}

/// One diagram, with its axes.
fn plane(svg: &mut String, diagram: &Diagram, up: &Axis) {
    let sizes = || diagram.lines.iter().flat_map(|line| &line.points).map(|&(size, _)| size);
    let (low, high) = (sizes().fold(f64::INFINITY, f64::min), sizes().fold(0.0, f64::max));
    let along = Axis { low, high, length: WIDE };
    let Diagram { title, over, .. } = diagram;
    let _ = writeln!(svg, "<text class=\"title\" y=\"-14\">{title}</text>");
    rules(svg, up);
    ticks(svg, &diagram.lines[0], &along);
    let _ = writeln!(svg, "<path class=\"edge\" d=\"M0 0V{HIGH}H{WIDE}\"/>");
    let (middle, under) = (WIDE / 2.0, HIGH + 40.0);
    let _ =
        writeln!(svg, "<text x=\"{middle}\" y=\"{under}\" text-anchor=\"middle\">{over}</text>");
    let _ = writeln!(
        svg,
        "<text transform=\"translate(-50 {}) rotate(-90)\" text-anchor=\"middle\">nanoseconds</text>",
        HIGH / 2.0
    );
    for drawn in diagram.lines.iter().rev() {
        line(svg, drawn, &along, up);
    }
}

/// A rule and a number for each power of ten.
fn rules(svg: &mut String, up: &Axis) {
    let mut nanos = up.low;
    while nanos <= up.high * 1.01 {
        let y = HIGH - up.at(nanos);
        let _ = writeln!(svg, "<path class=\"rule\" d=\"M0 {y:.1}H{WIDE}\"/>");
        let _ = writeln!(
            svg,
            "<text x=\"-8\" y=\"{:.1}\" text-anchor=\"end\">{}</text>",
            y + 4.0,
            grouped(nanos)
        );
        nanos *= 10.0;
    }
}

/// A stroke for each size of a line, and a number for every other one and the last.
fn ticks(svg: &mut String, line: &Line, along: &Axis) {
    let last = line.points.len() - 1;
    for (number, &(size, _)) in line.points.iter().enumerate() {
        let x = along.at(size);
        let _ = writeln!(svg, "<path class=\"edge\" d=\"M{x:.1} {HIGH}v5\"/>");
        if number == last || number % 2 == 0 && along.at(size) < WIDE - 40.0 {
            let y = HIGH + 20.0;
            let text = grouped(size);
            let _ =
                writeln!(svg, "<text x=\"{x:.1}\" y=\"{y}\" text-anchor=\"middle\">{text}</text>");
        }
    }
}

/// One line with its marks and quartiles.
fn line(svg: &mut String, line: &Line, along: &Axis, up: &Axis) {
    let mut path = String::new();
    let mut marks = String::new();
    for (number, &(size, spread)) in line.points.iter().enumerate() {
        let [x, low, y, high] = [
            along.at(size),
            HIGH - up.at(spread.lower),
            HIGH - up.at(spread.median),
            HIGH - up.at(spread.upper),
        ];
        let _ = write!(path, "{}{x:.1} {y:.1}", if number == 0 { 'M' } else { 'L' });
        let _ = write!(marks, "<path class=\"spread\" d=\"M{x:.1} {low:.1}V{high:.1}\"/>");
        marks += &mark(line.who, line.judged, x, y);
    }
    let dashed = if line.judged { "" } else { " dashed" };
    let class = class(line.who);
    let _ = writeln!(
        svg,
        "<g class=\"{class}\"><path class=\"line{dashed}\" d=\"{path}\"/>{marks}</g>"
    );
}

/// The mark of a point: its shape tells whose it is, and whether it is full that values are judged.
fn mark(who: Who, judged: bool, x: f64, y: f64) -> String {
    let class = if judged { "mark full" } else { "mark" };
    match who {
        Who::Library => {
            format!("<circle class=\"{class}\" cx=\"{x:.1}\" cy=\"{y:.1}\" r=\"3.2\"/>")
        }
        Who::Rust => format!("<path class=\"{class}\" d=\"M{x:.1} {y:.1}m-3 -3h6v6h-6z\"/>"),
        Who::C => format!("<path class=\"{class}\" d=\"M{x:.1} {y:.1}m0 -4l4 7h-8z\"/>"),
        Who::Memcpy => String::new(),
    }
}

/// The class of a line in the style.
fn class(who: Who) -> &'static str {
    match who {
        Who::Library => "library",
        Who::Rust => "rust",
        Who::C => "c",
        Who::Memcpy => "memcpy",
    }
}

/// A whole number with commas between its thousands.
fn grouped(number: f64) -> String {
    let number = number.round() as u64;
    match number / 1000 {
        0 => number.to_string(),
        thousands => format!("{thousands},{:03}", number % 1000),
    }
}
