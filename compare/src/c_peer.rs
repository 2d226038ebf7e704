//! The second independent implementation, in C (`c/`), behind the [`Subject`] of this crate. All
//! `unsafe` of the crate is here.

use crate::peer::{State, Value};
use crate::subject::{Opening, Subject};

/// The implementation in C.
#[derive(Clone, Copy, Debug)]
pub struct CPeer;

extern "C" {
    fn reader_read(
        message: *const u8,
        message_len: usize,
        table: *mut u32,
        table_len: usize,
        answer: *mut u64,
        answer_len: usize,
    ) -> u32;
    fn reader_judge(
        message: *const u8,
        message_len: usize,
        answer: *mut u64,
        answer_len: usize,
    ) -> u32;
    fn reader_value(
        message: *const u8,
        message_len: usize,
        k: u64,
        answer: *mut u64,
        answer_len: usize,
    ) -> u32;
    fn reader_view(
        message: *const u8,
        message_len: usize,
        k: u64,
        answer: *mut u64,
        answer_len: usize,
    ) -> u32;
    fn reader_blank(
        message: *const u8,
        message_len: usize,
        out: *mut u8,
        out_len: usize,
        answer: *mut u64,
        answer_len: usize,
    ) -> u32;
    fn reader_open(
        ids: *const u8,
        ids_len: usize,
        number: i64,
        status: u8,
        fields: u64,
        stated: u8,
        kind: u8,
        out: *mut u8,
        out_len: usize,
        answer: *mut u64,
        answer_len: usize,
    ) -> u32;
    fn reader_add(
        written: u64,
        declared: u64,
        added: u64,
        closed: u8,
        field: *const u8,
        field_len: usize,
        out: *mut u8,
        out_len: usize,
        answer: *mut u64,
        answer_len: usize,
    ) -> u32;
    fn reader_add_scalar(
        written: u64,
        declared: u64,
        added: u64,
        closed: u8,
        kind: u8,
        bits: u64,
        unit: u8,
        currency: u16,
        display: u8,
        out: *mut u8,
        out_len: usize,
        answer: *mut u64,
        answer_len: usize,
    ) -> u32;
    fn reader_close(
        written: u64,
        declared: u64,
        added: u64,
        closed: u8,
        answer: *mut u64,
        answer_len: usize,
    ) -> u32;
}

impl Subject for CPeer {
    fn name(&self) -> &'static str {
        "c"
    }

    fn read(&self, message: &[u8], table: &mut [u32], answer: &mut [u64]) -> u32 {
        let (rows, room) = (table.as_mut_ptr(), table.len());
        let (numbers, many) = (answer.as_mut_ptr(), answer.len());
        // SAFETY: each pointer and the length after it are of one slice, borrowed until the call ends.
        unsafe { reader_read(message.as_ptr(), message.len(), rows, room, numbers, many) }
    }

    fn judge(&self, message: &[u8], answer: &mut [u64]) -> u32 {
        let (numbers, many) = (answer.as_mut_ptr(), answer.len());
        // SAFETY: as in `read`.
        unsafe { reader_judge(message.as_ptr(), message.len(), numbers, many) }
    }

    fn value(&self, message: &[u8], k: u64, answer: &mut [u64]) -> u32 {
        let (numbers, many) = (answer.as_mut_ptr(), answer.len());
        // SAFETY: as in `read`.
        unsafe { reader_value(message.as_ptr(), message.len(), k, numbers, many) }
    }

    fn view(&self, message: &[u8], k: u64, answer: &mut [u64]) -> u32 {
        let (numbers, many) = (answer.as_mut_ptr(), answer.len());
        // SAFETY: as in `read`.
        unsafe { reader_view(message.as_ptr(), message.len(), k, numbers, many) }
    }

    fn blank(&self, message: &[u8], out: &mut [u8], answer: &mut [u64]) -> u32 {
        let (copy, room) = (out.as_mut_ptr(), out.len());
        let (numbers, many) = (answer.as_mut_ptr(), answer.len());
        // SAFETY: as in `read`.
        unsafe { reader_blank(message.as_ptr(), message.len(), copy, room, numbers, many) }
    }

    fn open(&self, opening: &Opening, out: &mut [u8], answer: &mut [u64]) -> u32 {
        let Opening { ids, number, status, fields, kind } = *opening;
        let (stated, kind) = (u8::from(kind.is_some()), kind.unwrap_or(0));
        let (frames, length) = (ids.as_ptr(), ids.len());
        let (copy, room) = (out.as_mut_ptr(), out.len());
        let (numbers, many) = (answer.as_mut_ptr(), answer.len());
        // SAFETY: as in `read`.
        unsafe {
            reader_open(
                frames, length, number, status, fields, stated, kind, copy, room, numbers, many,
            )
        }
    }

    fn add(&self, state: State, field: &[u8], out: &mut [u8], answer: &mut [u64]) -> u32 {
        let State { written, declared, added, closed } = state;
        let (bytes, length) = (field.as_ptr(), field.len());
        let (copy, room) = (out.as_mut_ptr(), out.len());
        let (numbers, many) = (answer.as_mut_ptr(), answer.len());
        let closed = u8::from(closed);
        // SAFETY: as in `read`.
        unsafe {
            reader_add(written, declared, added, closed, bytes, length, copy, room, numbers, many)
        }
    }

    fn add_scalar(&self, state: State, value: Value, out: &mut [u8], answer: &mut [u64]) -> u32 {
        let State { written, declared, added, closed } = state;
        let Value { kind, bits, unit, currency, display } = value;
        let (copy, room) = (out.as_mut_ptr(), out.len());
        let (numbers, many) = (answer.as_mut_ptr(), answer.len());
        let closed = u8::from(closed);
        // SAFETY: as in `read`.
        unsafe {
            reader_add_scalar(
                written, declared, added, closed, kind, bits, unit, currency, display, copy, room,
                numbers, many,
            )
        }
    }

    fn close(&self, state: State, answer: &mut [u64]) -> u32 {
        let State { written, declared, added, closed } = state;
        let (numbers, many) = (answer.as_mut_ptr(), answer.len());
        // SAFETY: as in `read`.
        unsafe { reader_close(written, declared, added, u8::from(closed), numbers, many) }
    }
}
