//! The calls of the library as they are, with slices in place of pointers: each returns 0 where it
//! is granted, the refusal's number where it is refused, and [`TOO_SHORT`] where `answer` has fewer
//! numbers than the call answers. All `unsafe` of the crate is here.
//!
//! What the numbers of an answer are stands in `bindings/c/sim0mq.h`. The rest of this crate says the
//! same in types; these are for a caller who lends its own buffers and wants nothing else.
//!
//! The library asks two things of a caller: that each pointer, never null, stands with the number
//! of elements behind it, and that the buffers of one call do not overlap. A slice gives the first,
//! an empty one too. The second follows from the borrows: what is written is borrowed alone.

mod books;
mod parts;

pub use books::*;
pub use parts::*;

/// What is returned where `answer` is too short; nothing is then written.
pub const TOO_SHORT: u32 = 255;

/// How many numbers [`read`] and [`judge`] answer.
pub const READ_NUMBERS: usize = 21;

/// How many numbers [`value`] answers.
pub const VALUE_NUMBERS: usize = 7;

/// How many numbers [`view`] answers.
pub const VIEW_NUMBERS: usize = 4;

/// How many numbers [`blank`] answers.
pub const BLANK_NUMBERS: usize = 3;

/// How many numbers each call of the writer answers.
pub const WRITER_NUMBERS: usize = 7;

/// The state of a writer, in numbers that nothing vouches for: each call judges them.
#[derive(Clone, Copy, Debug, PartialEq, Eq)]
pub struct State {
    /// The number of bytes written so far.
    pub written: u64,
    /// The declared number of fields.
    pub declared: u64,
    /// The number of fields added so far.
    pub added: u64,
    /// 0 where the writer is open.
    pub closed: u8,
}

/// What opening is asked for.
#[derive(Clone, Copy)]
pub struct Opening<'i> {
    /// Four encoded frames in one piece.
    pub ids: &'i [u8],
    /// The message number.
    pub number: i64,
    /// The status.
    pub status: u8,
    /// The declared number of fields.
    pub fields: u64,
    /// The type code of that number, where it is stated.
    pub count_type: Option<u8>,
}

/// A scalar as numbers.
#[derive(Clone, Copy)]
pub struct Scalar {
    /// Its kind, 0 to 11.
    pub kind: u8,
    /// Its bits.
    pub bits: u64,
    /// The unit type of its mark.
    pub unit: u8,
    /// The currency code of its mark.
    pub currency: u16,
    /// The display code of its mark.
    pub display: u8,
}

extern "C" {
    fn sim0mq_read(
        message: *const u8,
        message_len: usize,
        table: *mut u32,
        table_len: usize,
        answer: *mut u64,
        answer_len: usize,
    ) -> u32;
    fn sim0mq_judge(
        message: *const u8,
        message_len: usize,
        answer: *mut u64,
        answer_len: usize,
    ) -> u32;
    fn sim0mq_value(
        message: *const u8,
        message_len: usize,
        k: u64,
        answer: *mut u64,
        answer_len: usize,
    ) -> u32;
    fn sim0mq_view(
        message: *const u8,
        message_len: usize,
        k: u64,
        answer: *mut u64,
        answer_len: usize,
    ) -> u32;
    fn sim0mq_blank(
        message: *const u8,
        message_len: usize,
        out: *mut u8,
        out_len: usize,
        answer: *mut u64,
        answer_len: usize,
    ) -> u32;
    fn sim0mq_open(
        ids: *const u8,
        ids_len: usize,
        number: i64,
        status: u8,
        fields: u64,
        stated: u8,
        kind: u8,
        out: *mut u8,
        out_len: usize,
        answer: *mut u64,
        answer_len: usize,
    ) -> u32;
    fn sim0mq_add(
        written: u64,
        declared: u64,
        added: u64,
        closed: u8,
        field: *const u8,
        field_len: usize,
        out: *mut u8,
        out_len: usize,
        answer: *mut u64,
        answer_len: usize,
    ) -> u32;
    fn sim0mq_add_scalar(
        written: u64,
        declared: u64,
        added: u64,
        closed: u8,
        kind: u8,
        bits: u64,
        unit: u8,
        currency: u16,
        display: u8,
        out: *mut u8,
        out_len: usize,
        answer: *mut u64,
        answer_len: usize,
    ) -> u32;
    fn sim0mq_close(
        written: u64,
        declared: u64,
        added: u64,
        closed: u8,
        answer: *mut u64,
        answer_len: usize,
    ) -> u32;
}

/// Reads a message, and stores its rows in the table once it is accepted.
pub fn read(message: &[u8], table: &mut [u32], answer: &mut [u64]) -> u32 {
    let (rows, room) = (table.as_mut_ptr(), table.len());
    let (numbers, many) = (answer.as_mut_ptr(), answer.len());
    // SAFETY: each pointer and the length after it are of one slice, borrowed until the call ends.
    unsafe { sim0mq_read(message.as_ptr(), message.len(), rows, room, numbers, many) }
}

/// Judges a message as reading does, with no table.
pub fn judge(message: &[u8], answer: &mut [u64]) -> u32 {
    // SAFETY: as in `read`.
    unsafe { sim0mq_judge(message.as_ptr(), message.len(), answer.as_mut_ptr(), answer.len()) }
}

/// The value of field k, where it is a scalar.
pub fn value(message: &[u8], k: u64, answer: &mut [u64]) -> u32 {
    // SAFETY: as in `read`.
    unsafe { sim0mq_value(message.as_ptr(), message.len(), k, answer.as_mut_ptr(), answer.len()) }
}

/// Where the value bytes of field k stand.
pub fn view(message: &[u8], k: u64, answer: &mut [u64]) -> u32 {
    // SAFETY: as in `read`.
    unsafe { sim0mq_view(message.as_ptr(), message.len(), k, answer.as_mut_ptr(), answer.len()) }
}

/// Copies a message to `out` with zero in every payload value byte.
pub fn blank(message: &[u8], out: &mut [u8], answer: &mut [u64]) -> u32 {
    let (copy, room) = (out.as_mut_ptr(), out.len());
    let (numbers, many) = (answer.as_mut_ptr(), answer.len());
    // SAFETY: as in `read`.
    unsafe { sim0mq_blank(message.as_ptr(), message.len(), copy, room, numbers, many) }
}

/// Opens a message in `out`.
pub fn open(opening: &Opening<'_>, out: &mut [u8], answer: &mut [u64]) -> u32 {
    let Opening { ids, number, status, fields, count_type } = *opening;
    let (stated, kind) = (u8::from(count_type.is_some()), count_type.unwrap_or(0));
    let (buffer, room) = (out.as_mut_ptr(), out.len());
    let (ids, length) = (ids.as_ptr(), ids.len());
    let (numbers, many) = (answer.as_mut_ptr(), answer.len());
    // SAFETY: as in `read`.
    unsafe {
        sim0mq_open(ids, length, number, status, fields, stated, kind, buffer, room, numbers, many)
    }
}

/// Adds an encoded field to `out`.
pub fn add(taken: State, field: &[u8], out: &mut [u8], answer: &mut [u64]) -> u32 {
    let State { written, declared, added, closed } = taken;
    let (bytes, length) = (field.as_ptr(), field.len());
    let (buffer, room) = (out.as_mut_ptr(), out.len());
    let (numbers, many) = (answer.as_mut_ptr(), answer.len());
    // SAFETY: as in `read`.
    unsafe {
        sim0mq_add(written, declared, added, closed, bytes, length, buffer, room, numbers, many)
    }
}

/// Adds a scalar to `out`.
pub fn add_scalar(taken: State, scalar: Scalar, out: &mut [u8], answer: &mut [u64]) -> u32 {
    let State { written, declared, added, closed } = taken;
    let Scalar { kind, bits, unit, currency, display } = scalar;
    let (buffer, room) = (out.as_mut_ptr(), out.len());
    let (numbers, many) = (answer.as_mut_ptr(), answer.len());
    // SAFETY: as in `read`.
    unsafe {
        sim0mq_add_scalar(
            written, declared, added, closed, kind, bits, unit, currency, display, buffer, room,
            numbers, many,
        )
    }
}

/// Closes a message.
pub fn close(taken: State, answer: &mut [u64]) -> u32 {
    let State { written, declared, added, closed } = taken;
    // SAFETY: as in `read`.
    unsafe { sim0mq_close(written, declared, added, closed, answer.as_mut_ptr(), answer.len()) }
}
