//! The answers of the library's calls, each as its numbers or as the refusal that they tell.

use crate::raw::{self, Opening, RecorderState, Scalar, State};
use crate::raw::{BLANK_NUMBERS, READ_NUMBERS, VALUE_NUMBERS, VIEW_NUMBERS, WRITER_NUMBERS};
use crate::raw::{
    COMMAND_NUMBERS, MUSTER_NUMBERS, RECORDER_NUMBERS, RECORDING_ASK_NUMBERS, RECORDING_NUMBERS,
    SALVAGE_NUMBERS, TAKE_NUMBERS,
};
use crate::refusal::Refusal;

/// The numbers that a call answers, where it is granted; else the refusal.
fn answered<const N: usize>(call: impl FnOnce(&mut [u64]) -> u32) -> Result<[u64; N], Refusal> {
    let mut answer = [0; N];
    match call(&mut answer) {
        0 => Ok(answer),
        number => Err(Refusal::answered(number, answer[1])),
    }
}

/// The numbers of a writer's last answer. The state that the call handed back is among them, after
/// a refusal the one that it took, so they are lent to the next call as they are.
pub(crate) type Written = [u64; WRITER_NUMBERS];

/// The state that a call of the writer handed back.
const fn state(last: &Written) -> State {
    State { written: last[3], declared: last[4], added: last[5], closed: last[6] as u8 }
}

/// A call of the writer, which answered this number in these: nothing where it is granted; else the refusal.
fn granted(number: u32, last: &Written) -> Result<(), Refusal> {
    match number {
        0 => Ok(()),
        _ => Err(Refusal::answered(number, last[1])),
    }
}

/// Reading: the numbers of the answer, and the table's front filled; or the refusal.
pub(crate) fn read(message: &[u8], table: &mut [u32]) -> Result<[u64; READ_NUMBERS], Refusal> {
    answered(|answer| raw::read(message, table, answer))
}

/// Judging: the numbers of the answer, or the refusal.
pub(crate) fn judge(message: &[u8]) -> Result<[u64; READ_NUMBERS], Refusal> {
    answered(|answer| raw::judge(message, answer))
}

/// The scalar of field k: the numbers of the answer, or the refusal.
pub(crate) fn value(message: &[u8], k: u64) -> Result<[u64; VALUE_NUMBERS], Refusal> {
    answered(|answer| raw::value(message, k, answer))
}

/// The value bytes of field k: the place of the first and how many there are, or the refusal.
pub(crate) fn view(message: &[u8], k: u64) -> Result<(usize, usize), Refusal> {
    let answer: [u64; VIEW_NUMBERS] = answered(|answer| raw::view(message, k, answer))?;
    Ok((answer[2] as usize, answer[3] as usize))
}

/// Blanking: the length of the copy, which is at the front of `out`; or the refusal.
pub(crate) fn blank(message: &[u8], out: &mut [u8]) -> Result<usize, Refusal> {
    let answer: [u64; BLANK_NUMBERS] = answered(|answer| raw::blank(message, out, answer))?;
    Ok(answer[2] as usize)
}

/// Opening: the numbers of the answer, and the header written at the front of `out`; or the refusal.
pub(crate) fn open(opening: &Opening<'_>, out: &mut [u8]) -> Result<Written, Refusal> {
    answered(|answer| raw::open(opening, out, answer))
}

/// Adding an encoded field, which is then written to `out`; or the refusal.
pub(crate) fn add(last: &mut Written, field: &[u8], out: &mut [u8]) -> Result<(), Refusal> {
    let number = raw::add(state(last), field, out, last);
    granted(number, last)
}

/// Adding a scalar, whose field is then written to `out`; or the refusal.
pub(crate) fn add_scalar(
    last: &mut Written,
    scalar: Scalar,
    out: &mut [u8],
) -> Result<(), Refusal> {
    let number = raw::add_scalar(state(last), scalar, out, last);
    granted(number, last)
}

/// Closing: the length of the message, or the refusal.
pub(crate) fn close(last: &mut Written) -> Result<usize, Refusal> {
    let number = raw::close(state(last), last);
    granted(number, last).map(|()| last[2] as usize)
}

/// Opening a recording: the number of its messages, and the table's front filled; or the refusal.
pub(crate) fn recording_open_into(recording: &[u8], table: &mut [u32]) -> Result<usize, Refusal> {
    let answer: [u64; RECORDING_NUMBERS] =
        answered(|answer| raw::recording_open_into(recording, table, answer))?;
    Ok(answer[2] as usize)
}

/// Message k of a recording: the place of its first byte and its length, or the refusal.
pub(crate) fn recording_ask(recording: &[u8], k: u64) -> Result<(usize, usize), Refusal> {
    let answer: [u64; RECORDING_ASK_NUMBERS] =
        answered(|answer| raw::recording_ask(recording, k, answer))?;
    Ok((answer[2] as usize, answer[3] as usize))
}

/// The state that a granted call of the recorder hands back.
fn recorder_state(answer: [u64; RECORDER_NUMBERS]) -> RecorderState {
    RecorderState { written: answer[3], messages: answer[4], closed: answer[5] as u8 }
}

/// Adding a message to a recording: the state with the message written to `out`, or the refusal.
pub(crate) fn recording_add(
    taken: RecorderState,
    message: &[u8],
    out: &mut [u8],
) -> Result<RecorderState, Refusal> {
    answered(|answer| raw::recording_add(taken, message, out, answer)).map(recorder_state)
}

/// Closing a recording: the length of the recording, or the refusal.
pub(crate) fn recording_close(taken: RecorderState, out: &mut [u8]) -> Result<usize, Refusal> {
    let answer: [u64; RECORDER_NUMBERS] =
        answered(|answer| raw::recording_close(taken, out, answer))?;
    Ok(answer[2] as usize)
}

/// Salvage: the numbers of the answer, and the recording at the front of `out`; or the refusal.
pub(crate) fn salvage(file: &[u8], out: &mut [u8]) -> Result<[u64; SALVAGE_NUMBERS], Refusal> {
    answered(|answer| raw::salvage(file, out, answer))
}

/// Which command a message is: its number in the manual's order, from 0, or the refusal.
pub(crate) fn command(message: &[u8]) -> Result<usize, Refusal> {
    let answer: [u64; COMMAND_NUMBERS] = answered(|answer| raw::command(message, answer))?;
    Ok(answer[2] as usize)
}

/// The sum of two scalars: the numbers of the answer, or the refusal.
pub(crate) fn sum(a: Scalar, b: Scalar) -> Result<[u64; VALUE_NUMBERS], Refusal> {
    answered(|answer| raw::sum(a, b, answer))
}

/// The difference of two scalars: the numbers of the answer, or the refusal.
pub(crate) fn difference(a: Scalar, b: Scalar) -> Result<[u64; VALUE_NUMBERS], Refusal> {
    answered(|answer| raw::difference(a, b, answer))
}

/// Taking a message into a book: the sender's place, and the book with it; or the refusal.
pub(crate) fn take(book: &mut [u64], message: &[u8]) -> Result<usize, Refusal> {
    let answer: [u64; TAKE_NUMBERS] = answered(|answer| raw::take(book, message, answer))?;
    Ok(answer[2] as usize)
}

/// Closing a sender: 1 where it was held and 0 where not, and the book without it; or the refusal.
pub(crate) fn close_sender(book: &mut [u64], code: u64, id: &[u8]) -> Result<usize, Refusal> {
    let answer: [u64; TAKE_NUMBERS] = answered(|answer| raw::close_sender(book, code, id, answer))?;
    Ok(answer[2] as usize)
}

/// Mustering a message: the sender's place, and ledger and book after it; or the refusal.
pub(crate) fn muster(
    decks: &mut [u16],
    book: &mut [u64],
    message: &[u8],
) -> Result<usize, Refusal> {
    let answer: [u64; MUSTER_NUMBERS] =
        answered(|answer| raw::muster(decks, book, message, answer))?;
    Ok(answer[2] as usize)
}
