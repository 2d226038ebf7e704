//! How often each refusal was reached, by call.

use crate::peer::MEANINGS;
use crate::subject::SHORT;
use std::fmt;
use std::ops::Range;

/// The calls that are compared.
#[derive(Clone, Copy, Debug, PartialEq, Eq)]
pub enum Call {
    /// Reading with a table.
    Read,
    /// Reading without a table.
    Judge,
    /// Asking a value.
    Value,
    /// Asking a view.
    View,
    /// Blanking.
    Blank,
    /// Opening.
    Open,
    /// Adding an encoded field.
    Add,
    /// Adding a scalar.
    AddScalar,
    /// Closing.
    Close,
    /// Opening a recording without a table.
    OpenRecording,
    /// Opening a recording with a table.
    OpenInto,
    /// Asking for a message of a recording.
    AskMessage,
    /// Beginning a recording.
    NewRecorder,
    /// Adding a message to a recording.
    Record,
    /// Closing a recording.
    CloseRecording,
    /// Salvage.
    Salvage,
    /// Asking which command a message is.
    Command,
    /// Adding two scalars.
    Sum,
    /// Subtracting two scalars.
    Difference,
    /// Taking a message into the book.
    Take,
    /// Removing a sender from the book.
    Forget,
    /// Mustering a message.
    Muster,
    /// Mustering a recording.
    Reckon,
}

/// The heads of the columns, in the order of [`Call`].
const HEADS: [&str; 23] = [
    "read", "judge", "value", "view", "blank", "open", "add", "scalar", "close", "open", "into",
    "ask", "new", "record", "close", "salvage", "command", "sum", "less", "take", "forget",
    "muster", "reckon",
];
/// The calls about one message.
const OF_MESSAGES: Range<usize> = 0..Call::OpenRecording as usize;
/// The calls of what is built on messages.
const OF_PARTS: Range<usize> = Call::OpenRecording as usize..HEADS.len();

/// Counts of answers by call and number.
#[derive(Clone, Debug)]
pub struct Tally {
    calls: Range<usize>,
    counts: [[u64; HEADS.len()]; MEANINGS.len()],
    short: u64,
    unknown: u64,
}

impl Tally {
    /// No answer of the calls about one message.
    #[must_use]
    pub fn of_messages() -> Self {
        Tally::of(OF_MESSAGES)
    }

    /// No answer of the calls of what is built on messages.
    #[must_use]
    pub fn of_parts() -> Self {
        Tally::of(OF_PARTS)
    }

    fn of(calls: Range<usize>) -> Self {
        let counts = [[0; HEADS.len()]; MEANINGS.len()];
        Tally { calls, counts, short: 0, unknown: 0 }
    }

    /// Counts one answer.
    pub fn note(&mut self, call: Call, number: u32) {
        match self.counts.get_mut(number as usize) {
            Some(row) => row[call as usize] += 1,
            None if number == SHORT => self.short += 1,
            None => self.unknown += 1,
        }
    }

    /// How often this number was answered.
    #[must_use]
    pub fn total(&self, number: usize) -> u64 {
        self.counts[number].iter().sum()
    }

    /// How often one call answered this number.
    #[must_use]
    pub fn times(&self, call: Call, number: usize) -> u64 {
        self.counts[number][call as usize]
    }

    /// The refusals that these calls bring.
    #[must_use]
    pub fn wanted(&self) -> Vec<usize> {
        match self.calls.start {
            0 => (1..=17).chain([19]).collect(),
            _ => (18..MEANINGS.len()).collect(),
        }
    }

    /// The least reached of these refusals and how often it was reached.
    #[must_use]
    pub fn least(&self) -> (usize, u64) {
        let totals = self.wanted().into_iter().map(|number| (number, self.total(number)));
        totals.min_by_key(|&(_, total)| total).unwrap_or((0, 0))
    }
}

impl fmt::Display for Tally {
    fn fmt(&self, f: &mut fmt::Formatter<'_>) -> fmt::Result {
        write!(f, "No. {:>9}", "total")?;
        for head in &HEADS[self.calls.clone()] {
            write!(f, " {head:>8}")?;
        }
        writeln!(f, "  meaning")?;
        let wanted = self.wanted();
        for (number, row) in self.counts.iter().enumerate() {
            if self.total(number) == 0 && !wanted.contains(&number) {
                continue;
            }
            write!(f, "{number:>3} {:>9}", self.total(number))?;
            for count in &row[self.calls.clone()] {
                write!(f, " {count:>8}")?;
            }
            writeln!(f, "  {}", MEANINGS[number])?;
        }
        writeln!(f, "answer too short: {}, unknown numbers: {}", self.short, self.unknown)
    }
}
