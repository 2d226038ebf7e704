//! The fields of an accepted message.

use std::fmt;
use std::iter::{Enumerate, FusedIterator};
use std::slice::ChunksExact;

use crate::asking;
use crate::refusal::Refusal;
use crate::value::Value;

/// The table's numbers for each field.
pub(crate) const ROW_NUMBERS: usize = 6;

/// A field of an accepted message: its row of the table, and its bytes by that row.
///
/// `Debug` shows the row, which has no value in it.
#[derive(Clone, Copy)]
pub struct Field<'m> {
    message: &'m [u8],
    k: usize,
    row: [u32; ROW_NUMBERS],
}

impl<'m> Field<'m> {
    /// Field k of an accepted message, told by its row.
    #[inline]
    pub(crate) fn of(message: &'m [u8], k: usize, row: &[u32]) -> Field<'m> {
        Field { message, k, row: [row[0], row[1], row[2], row[3], row[4], row[5]] }
    }

    /// Its number in the message, counted from 0.
    #[inline]
    #[must_use]
    pub const fn k(&self) -> usize {
        self.k
    }

    /// Its code, 0 to 32.
    #[inline]
    #[must_use]
    pub const fn code(&self) -> u8 {
        self.row[0] as u8
    }

    /// The place of its code byte.
    #[inline]
    #[must_use]
    pub const fn place(&self) -> usize {
        self.row[1] as usize
    }

    /// The place of its first value byte. Where it has none, of the byte after its counts and
    /// marks.
    #[inline]
    #[must_use]
    pub const fn first(&self) -> usize {
        self.row[2] as usize
    }

    /// The number of its value bytes.
    #[inline]
    #[must_use]
    pub const fn len(&self) -> usize {
        self.row[3] as usize
    }

    /// Whether it has no value byte: an empty string, vector or matrix.
    #[inline]
    #[must_use]
    pub const fn is_empty(&self) -> bool {
        self.len() == 0
    }

    /// The number of its unit marks.
    #[inline]
    #[must_use]
    pub const fn marks(&self) -> usize {
        self.row[4] as usize
    }

    /// The number of its values, as its counts say it: characters, elements, rows times columns, or
    /// 1 for a scalar.
    #[inline]
    #[must_use]
    pub const fn values(&self) -> usize {
        self.row[5] as usize
    }

    /// Its value bytes, the very part of the message.
    #[inline]
    #[must_use]
    pub fn bytes(&self) -> &'m [u8] {
        &self.message[self.first()..self.first() + self.len()]
    }

    /// The whole field, as [`Writer::add`](crate::Writer::add) takes it: code, counts, marks and
    /// value bytes.
    #[inline]
    #[must_use]
    pub fn encoded(&self) -> &'m [u8] {
        &self.message[self.place()..self.first() + self.len()]
    }

    /// Its value, where it is a scalar (codes 0 to 8, 25 and 26). The message is read afresh for
    /// each such question.
    ///
    /// # Errors
    ///
    /// 17 where the field is no scalar.
    pub fn value(&self) -> Result<Value, Refusal> {
        asking::value(self.message, self.k)
    }
}

impl fmt::Debug for Field<'_> {
    fn fmt(&self, f: &mut fmt::Formatter<'_>) -> fmt::Result {
        f.debug_struct("Field")
            .field("k", &self.k)
            .field("code", &self.code())
            .field("place", &self.place())
            .field("first", &self.first())
            .field("len", &self.len())
            .field("marks", &self.marks())
            .field("values", &self.values())
            .finish()
    }
}

/// The fields of a message in their order, from either end.
#[derive(Clone)]
pub struct Fields<'r, 'm> {
    message: &'m [u8],
    rows: Enumerate<ChunksExact<'r, u32>>,
}

impl<'r, 'm> Fields<'r, 'm> {
    /// The fields that the rows of a message's table tell.
    #[inline]
    pub(crate) fn of(message: &'m [u8], rows: &'r [u32]) -> Fields<'r, 'm> {
        Fields { message, rows: rows.chunks_exact(ROW_NUMBERS).enumerate() }
    }
}

impl<'m> Iterator for Fields<'_, 'm> {
    type Item = Field<'m>;

    #[inline]
    fn next(&mut self) -> Option<Field<'m>> {
        self.rows.next().map(|(k, row)| Field::of(self.message, k, row))
    }

    #[inline]
    fn size_hint(&self) -> (usize, Option<usize>) {
        self.rows.size_hint()
    }

    #[inline]
    fn nth(&mut self, n: usize) -> Option<Field<'m>> {
        self.rows.nth(n).map(|(k, row)| Field::of(self.message, k, row))
    }
}

impl<'m> DoubleEndedIterator for Fields<'_, 'm> {
    #[inline]
    fn next_back(&mut self) -> Option<Field<'m>> {
        self.rows.next_back().map(|(k, row)| Field::of(self.message, k, row))
    }
}

impl ExactSizeIterator for Fields<'_, '_> {}

impl FusedIterator for Fields<'_, '_> {}

impl fmt::Debug for Fields<'_, '_> {
    fn fmt(&self, f: &mut fmt::Formatter<'_>) -> fmt::Result {
        f.debug_list().entries(self.clone()).finish()
    }
}
