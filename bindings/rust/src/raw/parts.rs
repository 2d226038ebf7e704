//! The calls of what is built on messages: recordings, commands and sums.

use super::Scalar;

/// How many numbers [`recording_open`] and [`recording_open_into`] answer.
pub const RECORDING_NUMBERS: usize = 3;

/// How many numbers [`recording_ask`] answers.
pub const RECORDING_ASK_NUMBERS: usize = 4;

/// How many numbers [`salvage`] answers.
pub const SALVAGE_NUMBERS: usize = 8;

/// How many numbers [`command`] answers.
pub const COMMAND_NUMBERS: usize = 3;

/// How many numbers each call of the recorder answers.
pub const RECORDER_NUMBERS: usize = 6;

/// The state of a recorder, in numbers that nothing vouches for: each call judges them.
#[derive(Clone, Copy, Debug, PartialEq, Eq)]
pub struct RecorderState {
    /// The number of bytes written so far.
    pub written: u64,
    /// The number of messages added so far.
    pub messages: u64,
    /// 0 where the recorder is open.
    pub closed: u8,
}

impl RecorderState {
    /// The state in which nothing is written.
    pub const NEW: RecorderState = RecorderState { written: 0, messages: 0, closed: 0 };
}

extern "C" {
    fn sim0mq_recording_open(
        recording: *const u8,
        recording_len: usize,
        answer: *mut u64,
        answer_len: usize,
    ) -> u32;
    fn sim0mq_recording_open_into(
        recording: *const u8,
        recording_len: usize,
        table: *mut u32,
        table_len: usize,
        answer: *mut u64,
        answer_len: usize,
    ) -> u32;
    fn sim0mq_recording_ask(
        recording: *const u8,
        recording_len: usize,
        k: u64,
        answer: *mut u64,
        answer_len: usize,
    ) -> u32;
    fn sim0mq_salvage(
        file: *const u8,
        file_len: usize,
        out: *mut u8,
        out_len: usize,
        answer: *mut u64,
        answer_len: usize,
    ) -> u32;
    fn sim0mq_command(
        message: *const u8,
        message_len: usize,
        answer: *mut u64,
        answer_len: usize,
    ) -> u32;
    fn sim0mq_recording_add(
        written: u64,
        messages: u64,
        closed: u8,
        message: *const u8,
        message_len: usize,
        out: *mut u8,
        out_len: usize,
        answer: *mut u64,
        answer_len: usize,
    ) -> u32;
    fn sim0mq_recording_close(
        written: u64,
        messages: u64,
        closed: u8,
        out: *mut u8,
        out_len: usize,
        answer: *mut u64,
        answer_len: usize,
    ) -> u32;
    fn sim0mq_sum(
        kind: u8,
        bits: u64,
        unit: u8,
        currency: u16,
        display: u8,
        kind2: u8,
        bits2: u64,
        unit2: u8,
        currency2: u16,
        display2: u8,
        answer: *mut u64,
        answer_len: usize,
    ) -> u32;
    fn sim0mq_difference(
        kind: u8,
        bits: u64,
        unit: u8,
        currency: u16,
        display: u8,
        kind2: u8,
        bits2: u64,
        unit2: u8,
        currency2: u16,
        display2: u8,
        answer: *mut u64,
        answer_len: usize,
    ) -> u32;
}

/// Opens a recording: each message of it is judged.
pub fn recording_open(recording: &[u8], answer: &mut [u64]) -> u32 {
    let (numbers, many) = (answer.as_mut_ptr(), answer.len());
    // SAFETY: each pointer and the length after it are of one slice, borrowed until the call ends.
    unsafe { sim0mq_recording_open(recording.as_ptr(), recording.len(), numbers, many) }
}

/// Opens a recording, and stores where each message stands in the table once all are accepted.
pub fn recording_open_into(recording: &[u8], table: &mut [u32], answer: &mut [u64]) -> u32 {
    let (bytes, length) = (recording.as_ptr(), recording.len());
    let (places, room) = (table.as_mut_ptr(), table.len());
    let (numbers, many) = (answer.as_mut_ptr(), answer.len());
    // SAFETY: as in `recording_open`.
    unsafe { sim0mq_recording_open_into(bytes, length, places, room, numbers, many) }
}

/// Where message k of a recording stands; of the messages that one alone is judged.
pub fn recording_ask(recording: &[u8], k: u64, answer: &mut [u64]) -> u32 {
    let (bytes, length) = (recording.as_ptr(), recording.len());
    // SAFETY: as in `recording_open`.
    unsafe { sim0mq_recording_ask(bytes, length, k, answer.as_mut_ptr(), answer.len()) }
}

/// Writes the recording of the messages at the front of a file to `out`.
pub fn salvage(file: &[u8], out: &mut [u8], answer: &mut [u64]) -> u32 {
    let (buffer, room) = (out.as_mut_ptr(), out.len());
    let (numbers, many) = (answer.as_mut_ptr(), answer.len());
    // SAFETY: as in `recording_open`.
    unsafe { sim0mq_salvage(file.as_ptr(), file.len(), buffer, room, numbers, many) }
}

/// Which command a message is.
pub fn command(message: &[u8], answer: &mut [u64]) -> u32 {
    // SAFETY: as in `recording_open`.
    unsafe { sim0mq_command(message.as_ptr(), message.len(), answer.as_mut_ptr(), answer.len()) }
}

/// Adds a message to the recording in `out`.
pub fn recording_add(
    taken: RecorderState,
    message: &[u8],
    out: &mut [u8],
    answer: &mut [u64],
) -> u32 {
    let RecorderState { written, messages, closed } = taken;
    let (bytes, length) = (message.as_ptr(), message.len());
    let (buffer, room) = (out.as_mut_ptr(), out.len());
    let (numbers, many) = (answer.as_mut_ptr(), answer.len());
    // SAFETY: as in `recording_open`.
    unsafe {
        sim0mq_recording_add(written, messages, closed, bytes, length, buffer, room, numbers, many)
    }
}

/// Closes the recording in `out`.
pub fn recording_close(taken: RecorderState, out: &mut [u8], answer: &mut [u64]) -> u32 {
    let RecorderState { written, messages, closed } = taken;
    let (buffer, room) = (out.as_mut_ptr(), out.len());
    let (numbers, many) = (answer.as_mut_ptr(), answer.len());
    // SAFETY: as in `recording_open`.
    unsafe { sim0mq_recording_close(written, messages, closed, buffer, room, numbers, many) }
}

/// The sum of two scalars.
pub fn sum(a: Scalar, b: Scalar, answer: &mut [u64]) -> u32 {
    let (numbers, many) = (answer.as_mut_ptr(), answer.len());
    // SAFETY: as in `recording_open`.
    unsafe {
        sim0mq_sum(
            a.kind, a.bits, a.unit, a.currency, a.display, b.kind, b.bits, b.unit, b.currency,
            b.display, numbers, many,
        )
    }
}

/// The difference of two scalars, the second taken from the first.
pub fn difference(a: Scalar, b: Scalar, answer: &mut [u64]) -> u32 {
    let (numbers, many) = (answer.as_mut_ptr(), answer.len());
    // SAFETY: as in `recording_open`.
    unsafe {
        sim0mq_difference(
            a.kind, a.bits, a.unit, a.currency, a.display, b.kind, b.bits, b.unit, b.currency,
            b.display, numbers, many,
        )
    }
}
