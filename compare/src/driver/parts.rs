//! Cases of what is built on messages: recordings, commands, sums, senders and
//! the ledger.

mod recorder;
mod runs;

use super::pair::{hex, Pair, MOST_ANSWER};
use super::Difference;
use crate::generate::{self, Message, Recording};
use crate::random::Random;
use crate::subject::{Parts, COMMAND, MESSAGE, RECKON, RECORDING, SALVAGE, VALUE};
use crate::tally::{Call, Tally};

/// Two implementations of the parts with their buffers and what has been
/// reached so far.
pub struct PartsDriver<'a> {
    pair: Pair<'a, dyn Parts + 'a>,
    recording: Recording,
    message: Message,
}

impl<'a> PartsDriver<'a> {
    /// A driver of these two implementations.
    #[must_use]
    pub fn new(one: &'a dyn Parts, two: &'a dyn Parts) -> Self {
        let tally = Tally::of_parts();
        PartsDriver {
            pair: Pair::new((one.name(), one), (two.name(), two), tally),
            recording: Recording::default(),
            message: Message::default(),
        }
    }

    /// How often each refusal was reached.
    #[must_use]
    pub fn tally(&self) -> &Tally {
        &self.pair.tally
    }

    /// Runs one case of a run and stops at the first difference in it.
    pub fn case(&mut self, seed: u64, case: u64) -> Result<(), Difference> {
        let mut random = Random::of_case(seed, case);
        let ran = match random.share(&[24, 12, 25, 19, 10, 10]) {
            0 => self.recordings(&mut random),
            1 => self.recorder(&mut random),
            2 => self.commands(&mut random),
            3 => self.sums(&mut random),
            4 => self.senders(&mut random),
            _ => self.ledger(&mut random),
        };
        ran.map_err(|difference| difference.of_case(seed, case))
    }

    /// Asks everything there is to ask about one recording.
    fn recordings(&mut self, random: &mut Random) -> Result<(), Difference> {
        let mut recording = std::mem::take(&mut self.recording);
        generate::recording(random, &mut recording);
        let asked = self.open_all(random, &recording);
        self.recording = recording;
        asked
    }

    /// Opens, asks, salvages and reckons a recording.
    fn open_all(&mut self, random: &mut Random, made: &Recording) -> Result<(), Difference> {
        let bytes = &made.bytes[..];
        let input = |extra: String| move || format!("recording {}\n{extra}", hex(bytes));
        let entries = generate::messages_table(random, made.messages);
        self.pair.lend(random, entries, 0);
        let room = generate::answer_length(random, RECORDING, MOST_ANSWER);
        self.pair.call(
            Call::OpenRecording,
            input(format!("answer of {room}")),
            |subject, lent| subject.open_recording(bytes, &mut lent.answer[..room]),
        )?;
        self.pair.call(Call::OpenInto, input(format!("table of {entries}")), |subject, lent| {
            subject.open_into(bytes, &mut lent.table, &mut lent.answer[..room])
        })?;
        let k = generate::asked(random, made.messages);
        let room = generate::answer_length(random, MESSAGE, MOST_ANSWER);
        self.pair.call(Call::AskMessage, input(format!("message {k}")), |subject, lent| {
            subject.ask_message(bytes, k, &mut lent.answer[..room])
        })?;
        let room = generate::answer_length(random, RECKON, MOST_ANSWER);
        self.pair.call(Call::Reckon, input(String::new()), |subject, lent| {
            subject.reckon(bytes, &mut lent.answer[..room])
        })?;
        let out = generate::any_room(random, made.salvaged);
        self.pair.lend(random, 0, out);
        let room = generate::answer_length(random, SALVAGE, MOST_ANSWER);
        self.pair.call(Call::Salvage, input(format!("room {out}")), |subject, lent| {
            subject.salvage(bytes, &mut lent.out[..out], &mut lent.answer[..room])
        })?;
        Ok(())
    }

    /// Asks which command a message is.
    fn commands(&mut self, random: &mut Random) -> Result<(), Difference> {
        let mut message = std::mem::take(&mut self.message);
        generate::command(random, &mut message.bytes);
        let bytes = &message.bytes;
        let room = generate::answer_length(random, COMMAND, MOST_ANSWER);
        let input = || format!("message {}", hex(bytes));
        let said = self.pair.call(Call::Command, input, |subject, lent| {
            subject.command(bytes, &mut lent.answer[..room])
        });
        self.message = message;
        said.map(drop)
    }

    /// Adds and subtracts two scalars.
    fn sums(&mut self, random: &mut Random) -> Result<(), Difference> {
        let [one, two] = generate::operands(random);
        let room = generate::answer_length(random, VALUE, MOST_ANSWER);
        let input = || format!("{one:x?}\n{two:x?}");
        self.pair.call(Call::Sum, input, |subject, lent| {
            subject.sum(one, two, &mut lent.answer[..room])
        })?;
        self.pair.call(Call::Difference, input, |subject, lent| {
            subject.difference(one, two, &mut lent.answer[..room])
        })?;
        Ok(())
    }
}
