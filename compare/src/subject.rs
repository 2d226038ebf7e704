//! What is compared: the public calls with all answers as plain numbers.

mod parts;

pub(crate) use parts::{
    handed_over, one_number, reckoning_numbers, recorder_numbers, salvage_numbers, value_numbers,
};
pub use parts::{recorder_of, Parts};

use crate::peer::{self, Reading, Refusal, State, Value};

/// Numbers in the answer of reading and judging: number, place, length,
/// fields, steps, then place and type code of the eight frames.
pub const READ: usize = 21;
/// Numbers in the answer of a value: number, place, kind, bits, unit,
/// currency, display.
pub const VALUE: usize = 7;
/// Numbers in the answer of a view: number, place, first, size.
pub const VIEW: usize = 4;
/// Numbers in the answer of blanking: number, place, length.
pub const BLANK: usize = 3;
/// Numbers in the answers of the writer: number, place, length, written,
/// declared, added, closed.
pub const WRITE: usize = 7;
/// Numbers in the answer of opening a recording: number, place, messages.
pub const RECORDING: usize = 3;
/// Numbers in the answer of asking for a message: number, place, start, length.
pub const MESSAGE: usize = 4;
/// Numbers in the answers of the recorder: number, place, length, written,
/// messages, closed.
pub const RECORD: usize = 6;
/// Numbers in the answer of salvage: number, place, length, kept, dropped, why
/// it stopped (0 the end, 1 as many messages as there may be, 2 a refusal),
/// number and place of that refusal.
pub const SALVAGE: usize = 8;
/// Numbers in the answer of a command: number, place, command.
pub const COMMAND: usize = 3;
/// Numbers in the answers of taking and mustering: number, place, the
/// sender's place in the book.
pub const TAKE: usize = 3;
/// Numbers in the answer of closing a sender: number, place, whether it was held.
pub const FORGET: usize = 3;
/// Numbers in the answer of reckoning: number, place, applied, refused, then
/// the heads on each deck.
pub const RECKON: usize = 20;
/// What a call returns where the lent answer is too short; it writes nothing.
pub const SHORT: u32 = 255;

/// What an opening takes besides its output.
#[derive(Clone, Copy, Debug)]
pub struct Opening<'a> {
    /// Four encoded id frames.
    pub ids: &'a [u8],
    /// The message number.
    pub number: i64,
    /// The status.
    pub status: u8,
    /// The declared number of fields.
    pub fields: u64,
    /// The type code of the count, if stated.
    pub kind: Option<u8>,
}

/// An implementation of the rules.
///
/// Each call writes its numbers to the start of the lent answer, all but
/// number and place being 0 on a refusal except a writer's state, and returns
/// the first of them. A number of 0 is acceptance.
pub trait Subject {
    /// What to call the implementation in reports.
    fn name(&self) -> &'static str;
    /// Reads with a lent table.
    fn read(&self, message: &[u8], table: &mut [u32], answer: &mut [u64]) -> u32;
    /// Reads without a table.
    fn judge(&self, message: &[u8], answer: &mut [u64]) -> u32;
    /// Asks the value of field `k`.
    fn value(&self, message: &[u8], k: u64, answer: &mut [u64]) -> u32;
    /// Asks where the value bytes of field `k` are.
    fn view(&self, message: &[u8], k: u64, answer: &mut [u64]) -> u32;
    /// Copies with all value bytes zero.
    fn blank(&self, message: &[u8], out: &mut [u8], answer: &mut [u64]) -> u32;
    /// Opens a message.
    fn open(&self, opening: &Opening, out: &mut [u8], answer: &mut [u64]) -> u32;
    /// Adds an encoded field.
    fn add(&self, state: State, field: &[u8], out: &mut [u8], answer: &mut [u64]) -> u32;
    /// Adds a scalar.
    fn add_scalar(&self, state: State, value: Value, out: &mut [u8], answer: &mut [u64]) -> u32;
    /// Closes a message.
    fn close(&self, state: State, answer: &mut [u64]) -> u32;
}

/// Gives the numbers that `make` makes, unless the lent answer is too short.
pub(crate) fn give<const N: usize>(answer: &mut [u64], make: impl FnOnce() -> [u64; N]) -> u32 {
    let Some(answer) = answer.first_chunk_mut() else {
        return SHORT;
    };
    *answer = make();
    answer[0] as u32
}

/// The numbers of a refusal.
pub(crate) fn refused<const N: usize>(refusal: Refusal) -> [u64; N] {
    let mut numbers = [0; N];
    numbers[0] = u64::from(refusal.number);
    numbers[1] = refusal.place;
    numbers
}

/// The numbers of a reading.
pub(crate) fn reading_numbers(result: Result<Reading, Refusal>) -> [u64; READ] {
    match result {
        Err(refusal) => refused(refusal),
        Ok(reading) => {
            let mut numbers = [0; READ];
            numbers[2..5].copy_from_slice(&[reading.length, reading.fields, reading.steps]);
            for (pair, (place, code)) in numbers[5..].chunks_exact_mut(2).zip(reading.frames) {
                pair.copy_from_slice(&[place, u64::from(code)]);
            }
            numbers
        }
    }
}

/// The numbers of a writer's call.
pub(crate) fn writer_numbers((result, state): (Result<u64, Refusal>, State)) -> [u64; WRITE] {
    let State { written, declared, added, closed } = state;
    let (number, place, length) = match result {
        Ok(length) => (0, 0, length),
        Err(refusal) => (u64::from(refusal.number), refusal.place, 0),
    };
    [number, place, length, written, declared, added, u64::from(closed)]
}

/// The state in the numbers of a writer's answer.
#[must_use]
pub fn state_of(answer: &[u64]) -> State {
    State { written: answer[3], declared: answer[4], added: answer[5], closed: answer[6] != 0 }
}

/// The independent implementation of this crate.
#[derive(Clone, Copy, Debug)]
pub struct Peer;

impl Subject for Peer {
    fn name(&self) -> &'static str {
        "peer"
    }

    #[inline(never)]
    fn read(&self, message: &[u8], table: &mut [u32], answer: &mut [u64]) -> u32 {
        give(answer, || reading_numbers(peer::read(message, Some(table))))
    }

    #[inline(never)]
    fn judge(&self, message: &[u8], answer: &mut [u64]) -> u32 {
        give(answer, || reading_numbers(peer::read(message, None)))
    }

    #[inline(never)]
    fn value(&self, message: &[u8], k: u64, answer: &mut [u64]) -> u32 {
        give(answer, || value_numbers(peer::value(message, k)))
    }

    #[inline(never)]
    fn view(&self, message: &[u8], k: u64, answer: &mut [u64]) -> u32 {
        give::<VIEW>(answer, || match peer::view(message, k) {
            Err(refusal) => refused(refusal),
            Ok((first, size)) => [0, 0, first, size],
        })
    }

    #[inline(never)]
    fn blank(&self, message: &[u8], out: &mut [u8], answer: &mut [u64]) -> u32 {
        give::<BLANK>(answer, || match peer::blank(message, out) {
            Err(refusal) => refused(refusal),
            Ok(length) => [0, 0, length],
        })
    }

    #[inline(never)]
    fn open(&self, opening: &Opening, out: &mut [u8], answer: &mut [u64]) -> u32 {
        let Opening { ids, number, status, fields, kind } = *opening;
        give(answer, || writer_numbers(peer::open(ids, number, status, fields, kind, out)))
    }

    #[inline(never)]
    fn add(&self, state: State, field: &[u8], out: &mut [u8], answer: &mut [u64]) -> u32 {
        give(answer, || writer_numbers(peer::add(state, field, out)))
    }

    #[inline(never)]
    fn add_scalar(&self, state: State, value: Value, out: &mut [u8], answer: &mut [u64]) -> u32 {
        let Value { kind, bits, unit, currency, display } = value;
        give(answer, || {
            writer_numbers(peer::add_scalar(state, kind, bits, unit, currency, display, out))
        })
    }

    #[inline(never)]
    fn close(&self, state: State, answer: &mut [u64]) -> u32 {
        give(answer, || writer_numbers(peer::close(state)))
    }
}
