//! Puts the same questions to two subjects and compares what they answer.

mod pair;
mod parts;
mod session;

pub use pair::{Answer, Buffers, Difference};
pub use parts::PartsDriver;

use crate::generate::{self, Message};
use crate::random::Random;
use crate::subject::{Subject, BLANK, READ, VALUE, VIEW};
use crate::tally::{Call, Tally};
use pair::{hex, Pair, MOST_ANSWER};

/// Two subjects with their buffers and what has been reached so far.
pub struct Driver<'a> {
    pair: Pair<'a, dyn Subject + 'a>,
    message: Message,
    field: Vec<u8>,
    ids: Vec<u8>,
}

impl<'a> Driver<'a> {
    /// A driver of these two subjects.
    #[must_use]
    pub fn new(one: &'a dyn Subject, two: &'a dyn Subject) -> Self {
        let tally = Tally::of_messages();
        Driver {
            pair: Pair::new((one.name(), one), (two.name(), two), tally),
            message: Message::default(),
            field: Vec::new(),
            ids: Vec::new(),
        }
    }

    /// How often each refusal was reached.
    #[must_use]
    pub fn tally(&self) -> &Tally {
        &self.pair.tally
    }

    /// Runs one case of a run and stops at the first difference in it.
    pub fn case(&mut self, seed: u64, case: u64) -> Result<(), Difference> {
        let mut random = Random::of_case(seed, case);
        let ran = match random.share(&[60, 30, 10]) {
            0 => self.questions(&mut random),
            1 => self.session(&mut random),
            _ => self.rewriting(&mut random),
        };
        ran.map_err(|difference| difference.of_case(seed, case))
    }

    /// Asks everything there is to ask about one message.
    fn questions(&mut self, random: &mut Random) -> Result<(), Difference> {
        let mut message = std::mem::take(&mut self.message);
        generate::message(random, &mut message);
        let asked = self.ask_all(random, &message);
        self.message = message;
        asked
    }

    /// Judges, reads, asks and blanks a message.
    fn ask_all(&mut self, random: &mut Random, message: &Message) -> Result<(), Difference> {
        let bytes = &message.bytes[..];
        let input = |extra: String| move || format!("message {}\n{extra}", hex(bytes));
        let entries = generate::table_length(random, message.fields);
        self.pair.lend(random, entries, 0);
        let room = generate::answer_length(random, READ, MOST_ANSWER);
        self.pair.call(Call::Judge, input(format!("answer of {room}")), |subject, lent| {
            subject.judge(bytes, &mut lent.answer[..room])
        })?;
        self.pair.call(Call::Read, input(format!("table of {entries}")), |subject, lent| {
            subject.read(bytes, &mut lent.table, &mut lent.answer[..room])
        })?;
        let k = generate::asked(random, message.fields);
        let room = generate::answer_length(random, VALUE, MOST_ANSWER);
        self.pair.call(Call::Value, input(format!("field {k}")), |subject, lent| {
            subject.value(bytes, k, &mut lent.answer[..room])
        })?;
        let room = generate::answer_length(random, VIEW, MOST_ANSWER);
        self.pair.call(Call::View, input(format!("field {k}")), |subject, lent| {
            subject.view(bytes, k, &mut lent.answer[..room])
        })?;
        let out = generate::room(random, bytes.len());
        self.pair.lend(random, 0, out);
        let room = generate::answer_length(random, BLANK, MOST_ANSWER);
        self.pair.call(Call::Blank, input(format!("room {out}")), |subject, lent| {
            subject.blank(bytes, &mut lent.out[..out], &mut lent.answer[..room])
        })?;
        Ok(())
    }
}
