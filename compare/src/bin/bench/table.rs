//! The table of messages in docs/SPEED.md, and how a table is put in its place there.

use crate::measure::{Rounds, Spread, ROUNDS};
use crate::work::{measured, Asking, Blanking, Reading, Who, Work, Writing};
use compare::samples::{samples, Sample};
use std::fs;

/// Puts what was timed of something in its place in a page, between two lines that name it.
pub fn write(page: &str, of: &str, table: &str) -> Result<(), String> {
    let text = fs::read_to_string(page).map_err(|error| format!("{page}: {error}"))?;
    let [begin, end] =
        ["begins", "ends"].map(|what| format!("<!-- {of} of `make bench` {what} -->\n"));
    let first = text.find(&begin).ok_or(format!("{page} has no line {begin}"))? + begin.len();
    let last = text[first..].find(&end).ok_or(format!("{page} has no line {end}"))? + first;
    let text = format!("{}\n{table}\n{}", &text[..first], &text[last..]);
    fs::write(page, text).map_err(|error| format!("{page}: {error}"))
}

/// Times every row, prints it, and answers the whole table.
pub fn table() -> String {
    let mut lines =
        vec![format!("One core, {}; {ROUNDS} rounds a row.", processor()), String::new()];
    lines.push(
        "| Call | Bytes | Library, ns | Library over Rust | Library over C | Library over `memcpy` \
         | Rust over `memcpy` | C over `memcpy` |"
            .to_owned(),
    );
    lines.push("|---|--:|--:|--:|--:|--:|--:|--:|".to_owned());
    println!("{}", lines.join("\n"));
    let samples = samples();
    let mut add = |line: String| {
        println!("{line}");
        lines.push(line);
    };
    samples.iter().for_each(|sample| add(line(sample, Reading::of(sample))));
    samples.iter().for_each(|sample| add(line(sample, Blanking::of(sample))));
    samples.iter().for_each(|sample| add(line(sample, Writing::of(sample))));
    add(line(&samples[1], Asking::of(&samples[1])));
    lines.join("\n") + "\n"
}

/// The line of the calls on one message.
fn line<W: Work>(sample: &Sample, work: W) -> String {
    let rounds = measured(work);
    let nanos = rounds.nanos(Who::Library).median;
    let cells = [
        format!("{} {}", W::NAME, sample.name),
        sample.bytes.len().to_string(),
        format!("{nanos:.1}"),
        shown(rounds.ratio(Who::Library, Who::Rust)),
        shown(rounds.ratio(Who::Library, Who::C)),
    ];
    format!("| {} | {} |", cells.join(" | "), copies::<W>(&rounds).join(" | "))
}

/// The times over that of `memcpy`, where it was timed.
fn copies<W: Work>(rounds: &Rounds) -> [String; 3] {
    [Who::Library, Who::Rust, Who::C].map(|who| match W::COPIES {
        true => format!("{:.2}", rounds.ratio(who, Who::Memcpy).median),
        false => String::new(),
    })
}

/// A ratio with its quartiles.
pub fn shown(Spread { lower, median, upper }: Spread) -> String {
    format!("{median:.2} ({lower:.2} to {upper:.2})")
}

/// The name of the processor, as far as the system tells it.
pub fn processor() -> String {
    let told = fs::read_to_string("/proc/cpuinfo").unwrap_or_default();
    let name = told.lines().find_map(|line| line.strip_prefix("model name")?.split_once(": "));
    name.map_or("of an unnamed processor".to_owned(), |(_, name)| name.to_owned())
}
