//! How cost grows: reading and blanking over the number of fields and over the number of bytes.

use crate::measure::{Rounds, Spread};
use crate::work::{measured, Blanking, Reading, Who, Work, ALL};
use compare::samples::{any_bytes, boolean_bytes, byte_fields, Sample};

/// The cost of one call over growing messages.
pub struct Line {
    /// Who was timed.
    pub who: Who,
    /// Whether the values were such as have to be looked at.
    pub judged: bool,
    /// The size and the nanoseconds of each message.
    pub points: Vec<(f64, Spread)>,
}

/// One diagram: its title, what grows, and its lines.
pub struct Diagram {
    pub title: &'static str,
    pub over: &'static str,
    pub lines: Vec<Line>,
}

/// Times all of it.
pub fn growth() -> Vec<Diagram> {
    let fields: Vec<usize> = (0..=8).map(|power| 1 << power).collect();
    let doubled = (0..10).map(|power| 100 << power);
    let bytes: Vec<usize> = doubled.chain([65_536]).collect();
    let grown = |make: fn(usize) -> Sample, sizes: &[usize]| -> Vec<(usize, Sample)> {
        sizes.iter().map(|&size| (size, make(size))).collect()
    };
    let fields = grown(byte_fields, &fields);
    let (looked_at, others) = (grown(boolean_bytes, &bytes), grown(any_bytes, &bytes));
    let read = |samples, judged| lines(samples, judged, Reading::of);
    let blank = |samples, judged| lines(samples, judged, Blanking::of);
    let both = |mut one: Vec<Line>, other: Vec<Line>| {
        one.extend(other.into_iter().filter(|line| line.who != Who::Memcpy));
        one
    };
    let diagram = |title, over, lines| Diagram { title, over, lines };
    vec![
        diagram("Reading byte fields", "fields", read(&fields, true)),
        diagram("Reading one array", "bytes", both(read(&looked_at, true), read(&others, false))),
        diagram("Blanking byte fields", "fields", blank(&fields, true)),
        diagram(
            "Blanking one array",
            "bytes",
            both(blank(&looked_at, true), blank(&others, false)),
        ),
    ]
}

/// A line for each that is timed, over these messages.
fn lines<'a, W: Work>(
    samples: &'a [(usize, Sample)],
    judged: bool,
    of: fn(&'a Sample) -> W,
) -> Vec<Line> {
    let all: Vec<(f64, Rounds)> =
        samples.iter().map(|(size, sample)| (*size as f64, measured(of(sample)))).collect();
    let many = if W::COPIES { 4 } else { 3 };
    let line = |&who: &Who| {
        let points = all.iter().map(|(size, rounds)| (*size, rounds.nanos(who))).collect();
        Line { who, judged, points }
    };
    ALL[..many].iter().map(line).collect()
}
