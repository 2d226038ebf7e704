//! Two subjects, what is lent to them, and the comparison of one call.

use crate::peer::ledger::{Ledger, DECKS};
use crate::peer::senders::{self, Book};
use crate::random::Random;
use crate::tally::{Call, Tally};
use std::fmt;

/// The numbers of the longest answer lent.
pub(super) const MOST_ANSWER: usize = 24;
/// What lent answers hold before a call.
const UNWRITTEN: u64 = 0xA5A5_5A5A_1234_8765;

/// The numbers lent to a call for its answer.
pub type Answer = [u64; MOST_ANSWER];

/// The buffers lent to one subject.
pub struct Buffers {
    /// The answer.
    pub answer: Answer,
    /// The field table, or that of a recording's messages.
    pub table: Vec<u32>,
    /// The output bytes.
    pub out: Vec<u8>,
    /// The book of senders.
    pub book: Book,
    /// The deck ledger.
    pub ledger: Ledger,
}

impl Buffers {
    fn new() -> Self {
        let (table, out) = (Vec::new(), Vec::new());
        let (book, ledger) = (senders::empty(), [0; DECKS]);
        Buffers { answer: [0; MOST_ANSWER], table, out, book, ledger }
    }
}

/// Two answers that are not the same, in words.
#[derive(Debug)]
pub struct Difference(pub(super) String);

impl fmt::Display for Difference {
    fn fmt(&self, f: &mut fmt::Formatter<'_>) -> fmt::Result {
        f.write_str(&self.0)
    }
}

impl std::error::Error for Difference {}

impl Difference {
    /// The same, told with its case.
    pub(super) fn of_case(self, seed: u64, case: u64) -> Self {
        Difference(format!("seed {seed}, case {case}\n{}", self.0))
    }
}

/// Two subjects with their names and buffers, and what has been reached so far.
pub(super) struct Pair<'a, S: ?Sized> {
    one: (&'static str, &'a S),
    two: (&'static str, &'a S),
    pub lent_one: Buffers,
    pub lent_two: Buffers,
    pub tally: Tally,
}

impl<'a, S: ?Sized> Pair<'a, S> {
    /// A pair of these two subjects.
    pub fn new(one: (&'static str, &'a S), two: (&'static str, &'a S), tally: Tally) -> Self {
        Pair { one, two, lent_one: Buffers::new(), lent_two: Buffers::new(), tally }
    }

    /// Gives both subjects the same table and output, filled with a pattern.
    ///
    /// The output has up to 19 bytes more than asked for, to see them stay.
    pub fn lend(&mut self, random: &mut Random, entries: usize, bytes: usize) {
        let start = random.bits();
        let bytes = bytes + random.index(20);
        for lent in [&mut self.lent_one, &mut self.lent_two] {
            lent.table.clear();
            lent.table.extend((0..entries as u32).map(|entry| entry ^ start as u32));
            lent.out.clear();
            lent.out.extend((0..bytes).map(|place| (place as u8) ^ (start >> 32) as u8));
        }
    }

    /// Runs one call on both subjects and compares answers and buffers.
    pub fn call(
        &mut self,
        call: Call,
        input: impl Fn() -> String,
        run: impl Fn(&S, &mut Buffers) -> u32,
    ) -> Result<(u32, Answer), Difference> {
        self.lent_one.answer.fill(UNWRITTEN);
        self.lent_two.answer.fill(UNWRITTEN);
        let one = run(self.one.1, &mut self.lent_one);
        let two = run(self.two.1, &mut self.lent_two);
        let same = one == two
            && self.lent_one.answer == self.lent_two.answer
            && self.lent_one.table == self.lent_two.table
            && self.lent_one.out == self.lent_two.out
            && self.lent_one.book == self.lent_two.book
            && self.lent_one.ledger == self.lent_two.ledger;
        if !same {
            return Err(self.difference(call, &input(), one, two));
        }
        self.tally.note(call, one);
        Ok((one, self.lent_one.answer))
    }

    /// Tells what was asked and what each subject answered.
    fn difference(&self, call: Call, input: &str, one: u32, two: u32) -> Difference {
        let mut text = format!("{call:?} differs\n{input}\n");
        for ((name, _), returned, lent) in
            [(self.one, one, &self.lent_one), (self.two, two, &self.lent_two)]
        {
            let numbers = lent.answer.map(|number| match number {
                UNWRITTEN => "-".to_owned(),
                number => number.to_string(),
            });
            text += &format!("{}: returned {returned}, {}\n", name, numbers.join(" "));
        }
        text += &first_difference("table", &self.lent_one.table, &self.lent_two.table);
        text += &first_difference("output", &self.lent_one.out, &self.lent_two.out);
        text += &first_difference("book", &self.lent_one.book, &self.lent_two.book);
        text += &first_difference("ledger", &self.lent_one.ledger, &self.lent_two.ledger);
        Difference(text)
    }
}

/// Where two buffers first differ, if they do.
fn first_difference<T: PartialEq + fmt::Debug>(name: &str, one: &[T], two: &[T]) -> String {
    match one.iter().zip(two).position(|(one, two)| one != two) {
        Some(place) => {
            format!("{name} differs first at {place}: {:?} and {:?}\n", one[place], two[place])
        }
        None => String::new(),
    }
}

/// Bytes in hex, with their number in front.
pub(super) fn hex(bytes: &[u8]) -> String {
    use fmt::Write;
    let mut text = format!("({} bytes) ", bytes.len());
    for byte in bytes {
        let _ = write!(text, "{byte:02x}");
    }
    text
}
