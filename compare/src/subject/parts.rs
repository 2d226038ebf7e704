//! The calls of what is built on messages: recordings, commands, sums, senders
//! and the ledger.

use super::{
    give, refused, Peer, COMMAND, FORGET, MESSAGE, RECKON, RECORD, RECORDING, SALVAGE, TAKE, VALUE,
};
use crate::peer::ledger::{self, Ledger, Reckoned};
use crate::peer::recordings::{self, Recorder, Salvaged, Stop};
use crate::peer::senders::{self, Book};
use crate::peer::{commands, sums, Refusal, Value};

/// An implementation of the parts that are built on messages.
///
/// Each call answers as those of [`Subject`](super::Subject) do: its numbers
/// at the start of the lent answer, all but number and place being 0 on a
/// refusal except a recorder's state, and the first of them returned. Where the
/// lent answer is too short, book and ledger stay too.
pub trait Parts {
    /// What to call the implementation in reports.
    fn name(&self) -> &'static str;
    /// Opens a recording without a table.
    fn open_recording(&self, recording: &[u8], answer: &mut [u64]) -> u32;
    /// Opens a recording with a lent table of two numbers a message.
    fn open_into(&self, recording: &[u8], table: &mut [u32], answer: &mut [u64]) -> u32;
    /// Asks where message `k` of a recording stands.
    fn ask_message(&self, recording: &[u8], k: u64, answer: &mut [u64]) -> u32;
    /// A recorder that has written nothing.
    fn new_recorder(&self, answer: &mut [u64]) -> u32;
    /// Adds a message to a recording.
    fn record(&self, state: Recorder, message: &[u8], out: &mut [u8], answer: &mut [u64]) -> u32;
    /// Closes a recording.
    fn close_recording(&self, state: Recorder, out: &mut [u8], answer: &mut [u64]) -> u32;
    /// Brings back a file that was cut.
    fn salvage(&self, file: &[u8], out: &mut [u8], answer: &mut [u64]) -> u32;
    /// Asks which command a message is.
    fn command(&self, message: &[u8], answer: &mut [u64]) -> u32;
    /// Adds two scalars.
    fn sum(&self, one: Value, two: Value, answer: &mut [u64]) -> u32;
    /// Takes the second scalar from the first.
    fn difference(&self, one: Value, two: Value, answer: &mut [u64]) -> u32;
    /// Takes a message into the book.
    fn take(&self, book: &mut Book, message: &[u8], answer: &mut [u64]) -> u32;
    /// Removes a sender from the book.
    fn forget(&self, book: &mut Book, code: u8, id: &[u8], answer: &mut [u64]) -> u32;
    /// Musters a message.
    fn muster(
        &self,
        ledger: &mut Ledger,
        book: &mut Book,
        message: &[u8],
        answer: &mut [u64],
    ) -> u32;
    /// Musters the messages of a recording.
    fn reckon(&self, recording: &[u8], answer: &mut [u64]) -> u32;
}

/// The numbers of an answer that is one number.
pub(crate) fn one_number(result: Result<u64, Refusal>) -> [u64; 3] {
    match result {
        Err(refusal) => refused(refusal),
        Ok(number) => [0, 0, number],
    }
}

/// The numbers of a value.
pub(crate) fn value_numbers(result: Result<Value, Refusal>) -> [u64; VALUE] {
    match result {
        Err(refusal) => refused(refusal),
        Ok(Value { kind, bits, unit, currency, display }) => {
            [0, 0, kind.into(), bits, unit.into(), currency.into(), display.into()]
        }
    }
}

/// A scalar in numbers, as the calls of the boundary take it: a double whose bits are a NaN is not
/// a number, which is how asking answers such bits too.
pub(crate) fn handed_over(value: Value) -> Value {
    match value.kind {
        10 if f64::from_bits(value.bits).is_nan() => {
            Value { kind: 11, bits: 26, ..Value::default() }
        }
        _ => value,
    }
}

/// The numbers of a recorder's call.
pub(crate) fn recorder_numbers((result, state): (Result<u64, Refusal>, Recorder)) -> [u64; RECORD] {
    let Recorder { written, messages, closed } = state;
    let (number, place, length) = match result {
        Ok(length) => (0, 0, length),
        Err(refusal) => (u64::from(refusal.number), refusal.place, 0),
    };
    [number, place, length, written, messages, u64::from(closed)]
}

/// The state in the numbers of a recorder's answer.
#[must_use]
pub fn recorder_of(answer: &[u64]) -> Recorder {
    Recorder { written: answer[3], messages: answer[4], closed: answer[5] != 0 }
}

/// The numbers of salvage.
pub(crate) fn salvage_numbers(result: Result<Salvaged, Refusal>) -> [u64; SALVAGE] {
    match result {
        Err(refusal) => refused(refusal),
        Ok(Salvaged { length, kept, dropped, stop }) => {
            let (kind, number, place) = match stop {
                Stop::End => (0, 0, 0),
                Stop::Full => (1, 0, 0),
                Stop::Refused(refusal) => (2, refusal.number.into(), refusal.place),
            };
            [0, 0, length, kept, dropped, kind, number, place]
        }
    }
}

/// The numbers of reckoning.
pub(crate) fn reckoning_numbers(result: Result<Reckoned, Refusal>) -> [u64; RECKON] {
    match result {
        Err(refusal) => refused(refusal),
        Ok(Reckoned { ledger, applied, refused }) => {
            let mut numbers = [0; RECKON];
            numbers[2..4].copy_from_slice(&[applied, refused]);
            for (number, heads) in numbers[4..].iter_mut().zip(ledger) {
                *number = heads.into();
            }
            numbers
        }
    }
}

impl Parts for Peer {
    fn name(&self) -> &'static str {
        "peer"
    }

    #[inline(never)]
    fn open_recording(&self, recording: &[u8], answer: &mut [u64]) -> u32 {
        give::<RECORDING>(answer, || one_number(recordings::open(recording)))
    }

    #[inline(never)]
    fn open_into(&self, recording: &[u8], table: &mut [u32], answer: &mut [u64]) -> u32 {
        give::<RECORDING>(answer, || one_number(recordings::open_into(recording, table)))
    }

    #[inline(never)]
    fn ask_message(&self, recording: &[u8], k: u64, answer: &mut [u64]) -> u32 {
        give::<MESSAGE>(answer, || match recordings::ask(recording, k) {
            Err(refusal) => refused(refusal),
            Ok((start, length)) => [0, 0, start, length],
        })
    }

    #[inline(never)]
    fn new_recorder(&self, answer: &mut [u64]) -> u32 {
        give(answer, || recorder_numbers((Ok(0), Recorder::NEW)))
    }

    #[inline(never)]
    fn record(&self, state: Recorder, message: &[u8], out: &mut [u8], answer: &mut [u64]) -> u32 {
        give(answer, || recorder_numbers(recordings::add(state, message, out)))
    }

    #[inline(never)]
    fn close_recording(&self, state: Recorder, out: &mut [u8], answer: &mut [u64]) -> u32 {
        give(answer, || recorder_numbers(recordings::close(state, out)))
    }

    #[inline(never)]
    fn salvage(&self, file: &[u8], out: &mut [u8], answer: &mut [u64]) -> u32 {
        give(answer, || salvage_numbers(recordings::salvage(file, out)))
    }

    #[inline(never)]
    fn command(&self, message: &[u8], answer: &mut [u64]) -> u32 {
        give::<COMMAND>(answer, || one_number(commands::command(message)))
    }

    #[inline(never)]
    fn sum(&self, one: Value, two: Value, answer: &mut [u64]) -> u32 {
        give(answer, || value_numbers(sums::sum(handed_over(one), handed_over(two))))
    }

    #[inline(never)]
    fn difference(&self, one: Value, two: Value, answer: &mut [u64]) -> u32 {
        give(answer, || value_numbers(sums::difference(handed_over(one), handed_over(two))))
    }

    #[inline(never)]
    fn take(&self, book: &mut Book, message: &[u8], answer: &mut [u64]) -> u32 {
        give::<TAKE>(answer, || one_number(senders::take(book, message)))
    }

    #[inline(never)]
    fn forget(&self, book: &mut Book, code: u8, id: &[u8], answer: &mut [u64]) -> u32 {
        give::<FORGET>(answer, || [0, 0, u64::from(senders::close(book, code, id))])
    }

    #[inline(never)]
    fn muster(
        &self,
        ledger: &mut Ledger,
        book: &mut Book,
        message: &[u8],
        answer: &mut [u64],
    ) -> u32 {
        give::<TAKE>(answer, || one_number(ledger::muster(ledger, book, message)))
    }

    #[inline(never)]
    fn reckon(&self, recording: &[u8], answer: &mut [u64]) -> u32 {
        give(answer, || reckoning_numbers(ledger::reckon(recording)))
    }
}
