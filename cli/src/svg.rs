//! A picture of the decks: the heads on each as bars, and each deck over the messages as steps. It
//! has numbers and fixed words in it, and nothing of what a message carries.

use std::fmt::{self, Write};

use sim0mq::DECKS;

use crate::commands::Change;

/// The picture's width and height.
const SIZE: (usize, usize) = (780, 745);
/// The left and the right end of both parts.
const SIDES: (usize, usize) = (70, 646);
/// The height of the tallest bar, and the place of the line on which the bars stand.
const BARS: (usize, usize) = (130, 190);
/// The height of a deck's row of steps, and the place where the first row begins.
const ROWS: (usize, usize) = (28, 258);

/// Colours on a light and on a dark ground.
const STYLE: &str = "\
  .ground { fill: #ffffff }
  text { font: 12px sans-serif; fill: #1f2328 }
  .title { font-weight: bold; font-size: 14px }
  .bar { fill: #1f6fb2 }
  .area { fill: #1f6fb2; fill-opacity: 0.25 }
  .step { fill: none; stroke: #1f6fb2; stroke-width: 1.5 }
  .base { stroke: #8c959f; stroke-width: 1 }
  @media (prefers-color-scheme: dark) {
    .ground { fill: #0d1117 }
    text { fill: #e6edf3 }
    .bar { fill: #6cb6ff }
    .area { fill: #6cb6ff }
    .step { stroke: #6cb6ff }
    .base { stroke: #6e7681 }
  }
";

/// The picture of what is on the decks after so many messages, and of how it came to be.
pub fn picture(decks: &[u16; DECKS], history: &[Change], messages: usize) -> String {
    let mut text = String::new();
    // Writing to a string never fails.
    let _ = write(&mut text, decks, history, messages);
    text
}

/// Writes the picture.
fn write(
    out: &mut String,
    decks: &[u16; DECKS],
    history: &[Change],
    messages: usize,
) -> fmt::Result {
    let (width, height) = SIZE;
    writeln!(
        out,
        "<svg xmlns=\"http://www.w3.org/2000/svg\" width=\"{width}\" height=\"{height}\" \
         viewBox=\"0 0 {width} {height}\" role=\"img\">"
    )?;
    writeln!(out, "<title>Heads on each deck after {messages} messages</title>")?;
    writeln!(out, "<style>\n{STYLE}</style>")?;
    writeln!(out, "<rect class=\"ground\" width=\"{width}\" height=\"{height}\"/>")?;
    bars(out, decks, messages)?;
    steps(out, decks, history, messages)?;
    writeln!(out, "</svg>")
}

/// Writes the heads on each deck as bars, with their numbers.
fn bars(out: &mut String, decks: &[u16; DECKS], messages: usize) -> fmt::Result {
    let ((left, right), (tall, ground)) = (SIDES, BARS);
    title(out, 24, &format!("Heads on each deck after {messages} messages"))?;
    label(out, left - 8, ground + 18, "end", "deck")?;
    let most = decks.iter().copied().max().unwrap_or(0);
    let wide = (right - left) / DECKS;
    for (deck, &heads) in decks.iter().enumerate() {
        let (x, middle) = (left + deck * wide + 5, left + deck * wide + wide / 2);
        let high = scaled(heads.into(), most, tall);
        let top = ground as f64 - high;
        writeln!(
            out,
            "<rect class=\"bar\" x=\"{x}\" y=\"{top:.1}\" width=\"{}\" height=\"{high:.1}\"/>",
            wide - 10
        )?;
        label(out, middle, top as usize - 4, "middle", &heads.to_string())?;
        label(out, middle, ground + 18, "middle", &deck.to_string())?;
    }
    base(out, ground)
}

/// Writes each deck over the messages, a row for each, with the most heads that were on it.
fn steps(
    out: &mut String,
    decks: &[u16; DECKS],
    history: &[Change],
    messages: usize,
) -> fmt::Result {
    let ((left, right), (row, first)) = (SIDES, ROWS);
    title(out, first - 16, "Each deck over the messages, each to a scale of its own")?;
    for (deck, heads) in decks.iter().enumerate() {
        let ground = first + (deck + 1) * row;
        let changes: Vec<&Change> = history.iter().filter(|change| change.deck == deck).collect();
        base(out, ground)?;
        if let Some(most) = changes.iter().map(|change| change.heads).max() {
            let path = path(&changes, most, messages, ground);
            writeln!(out, "<path class=\"area\" d=\"{path} V{ground} H{left} Z\"/>")?;
            writeln!(out, "<path class=\"step\" d=\"{path}\"/>")?;
            label(out, right + 8, ground - 4, "start", &format!("{heads}, most {most}"))?;
        } else {
            label(out, right + 8, ground - 4, "start", &heads.to_string())?;
        }
        label(out, left - 8, ground - 4, "end", &format!("deck {deck}"))?;
    }
    let below = first + DECKS * row + 18;
    label(out, left, below, "start", "message 0")?;
    label(out, right, below, "end", &format!("message {}", messages.saturating_sub(1)))
}

/// The steps of one deck, from an empty one on: each message is as wide as every other.
fn path(changes: &[&Change], most: u16, messages: usize, ground: usize) -> String {
    let (left, right) = SIDES;
    let wide = (right - left) as f64 / messages.max(1) as f64;
    let mut path = format!("M{left} {ground}");
    for change in changes {
        let x = left as f64 + change.k as f64 * wide;
        let y = ground as f64 - scaled(change.heads.into(), most, ROWS.0 - 6);
        path += &format!(" H{x:.1} V{y:.1}");
    }
    path + &format!(" H{right}")
}

/// How high so many heads stand where the most of them stand as high as `tall`.
fn scaled(heads: f64, most: u16, tall: usize) -> f64 {
    heads / f64::from(most.max(1)) * tall as f64
}

/// Writes the heading of a part.
fn title(out: &mut String, y: usize, text: &str) -> fmt::Result {
    writeln!(out, "<text class=\"title\" x=\"16\" y=\"{y}\">{text}</text>")
}

/// Writes a text that begins, has its middle or ends at x.
fn label(out: &mut String, x: usize, y: usize, anchor: &str, text: &str) -> fmt::Result {
    writeln!(out, "<text x=\"{x}\" y=\"{y}\" text-anchor=\"{anchor}\">{text}</text>")
}

/// Writes the line on which bars or steps stand.
fn base(out: &mut String, y: usize) -> fmt::Result {
    let (left, right) = SIDES;
    writeln!(out, "<line class=\"base\" x1=\"{left}\" y1=\"{y}\" x2=\"{right}\" y2=\"{y}\"/>")
}
