//! Writing: a message opened with its header, filled field by field, and closed.

use std::error::Error;
use std::fmt;

use crate::answers::{self, Written};
use crate::raw::Opening;
use crate::refusal::Refusal;
use crate::value::Value;

/// What a message is opened with. `Debug` shows no id and no message number.
#[derive(Clone, Copy)]
pub struct Header<'i> {
    /// Four encoded frames in one piece: run, sender, receiver and message type. An id that is
    /// text is a 9, the number of its bytes in four bytes, and those.
    pub ids: &'i [u8],
    /// The message number.
    pub number: i64,
    /// The status, 1 to 3.
    pub status: u8,
    /// The declared number of fields, 0 to 256.
    pub fields: usize,
    /// The type code of that number: 0, 1 or 2; 2, a 32-bit int, where none is stated.
    pub count_type: Option<u8>,
}

impl fmt::Debug for Header<'_> {
    fn fmt(&self, f: &mut fmt::Formatter<'_>) -> fmt::Result {
        f.debug_struct("Header")
            .field("ids_len", &self.ids.len())
            .field("fields", &self.fields)
            .field("count_type", &self.count_type)
            .finish_non_exhaustive()
    }
}

/// A message that is being written to the front of a lent buffer.
///
/// The buffer is lent until the writer is closed or dropped, and its state cannot be set from
/// outside, so a finished message is one that [`read`](crate::read) accepts. A refused call
/// changes neither. `Debug` shows how far the writing is, and no byte.
///
/// ```
/// use sim0mq::{Header, Value, Writer};
///
/// let mut out = [0; 100];
/// let header = Header {
///     ids: b"\x09\0\0\0\x09IDVV.14.2\x09\0\0\0\x04MC.1\x09\0\0\0\x05MM1.4\x09\0\0\0\x06DSOL.3",
///     number: 124,
///     status: 2,
///     fields: 1,
///     count_type: Some(1),
/// };
/// let mut writer = Writer::open(&mut out, &header)?;
/// assert_eq!(writer.add_value(Value::Double(0.2))?, 77);
/// let message = writer.close()?;
/// assert_eq!(sim0mq::value(message, 0)?, Value::Double(0.2));
/// # Ok::<(), sim0mq::Refusal>(())
/// ```
#[must_use = "a message is finished by closing the writer"]
pub struct Writer<'a> {
    out: &'a mut [u8],
    last: Written,
}

impl<'a> Writer<'a> {
    /// Opens a message: its header is written to the front of `out`.
    ///
    /// # Errors
    ///
    /// 1, 4, 5 and 13 for the ids, with places in them; 6 for the status; 4 for the count type; 7
    /// for the number of fields; 8 where the header is longer than a message may be; 14 where
    /// `out` is shorter than the header. `out` is then as it was.
    pub fn open(out: &'a mut [u8], header: &Header<'_>) -> Result<Writer<'a>, Refusal> {
        let Header { ids, number, status, fields, count_type } = *header;
        let opening = Opening { ids, number, status, fields: fields as u64, count_type };
        answers::open(&opening, out).map(|last| Writer { out, last })
    }

    /// Adds one encoded field, as [`Field::encoded`](crate::Field::encoded) gives it, and answers
    /// the number of bytes written so far.
    ///
    /// # Errors
    ///
    /// 15 where the declared number of fields is already there; then the refusals of reading a
    /// field, with places in this one, and 13 where something follows it; 8 and 14 where the
    /// message or `out` has no room for it.
    pub fn add(&mut self, field: &[u8]) -> Result<usize, Refusal> {
        answers::add(&mut self.last, field, self.out)?;
        Ok(self.written())
    }

    /// Adds a field that holds this value, and answers the number of bytes written so far.
    ///
    /// # Errors
    ///
    /// 15 where the declared number of fields is already there; 17 where the value is a NaN, or
    /// its mark one that no message can have; 8 and 14 where the message or `out` has no room.
    pub fn add_value(&mut self, value: Value) -> Result<usize, Refusal> {
        answers::add_scalar(&mut self.last, value.numbers(), self.out)?;
        Ok(self.written())
    }

    /// Closes the message, and answers its bytes: the front of the buffer.
    ///
    /// # Errors
    ///
    /// 15 where fields are still to be added. The writer then comes back with the refusal.
    pub fn close(mut self) -> Result<&'a mut [u8], Unfinished<'a>> {
        match answers::close(&mut self.last) {
            Ok(length) => Ok(&mut self.out[..length]),
            Err(refusal) => Err(Unfinished { refusal, writer: self }),
        }
    }

    /// The number of bytes written so far.
    #[must_use]
    pub const fn written(&self) -> usize {
        self.last[3] as usize
    }

    /// The number of fields that the header declares.
    #[must_use]
    pub const fn declared(&self) -> usize {
        self.last[4] as usize
    }

    /// The number of fields added so far.
    #[must_use]
    pub const fn added(&self) -> usize {
        self.last[5] as usize
    }
}

impl fmt::Debug for Writer<'_> {
    fn fmt(&self, f: &mut fmt::Formatter<'_>) -> fmt::Result {
        f.debug_struct("Writer")
            .field("written", &self.written())
            .field("declared", &self.declared())
            .field("added", &self.added())
            .field("room", &self.out.len())
            .finish()
    }
}

/// A closing that was refused: the refusal, and the writer as it was.
///
/// ```
/// use sim0mq::{Header, Value, Writer};
///
/// let mut out = [0; 100];
/// let ids = &[1, 0, 1].repeat(4);
/// let header = Header { ids, number: 0, status: 1, fields: 1, count_type: None };
/// let unfinished = Writer::open(&mut out, &header)?.close().unwrap_err();
/// assert_eq!(unfinished.refusal().number(), 15);
///
/// let mut writer = unfinished.into_writer();
/// writer.add_value(Value::Boolean(true))?;
/// assert_eq!(writer.close()?.len(), 40);
/// # Ok::<(), sim0mq::Refusal>(())
/// ```
#[derive(Debug)]
pub struct Unfinished<'a> {
    refusal: Refusal,
    writer: Writer<'a>,
}

impl<'a> Unfinished<'a> {
    /// Why closing was refused.
    #[must_use]
    pub const fn refusal(&self) -> Refusal {
        self.refusal
    }

    /// The writer, to go on with.
    pub fn into_writer(self) -> Writer<'a> {
        self.writer
    }
}

impl fmt::Display for Unfinished<'_> {
    fn fmt(&self, f: &mut fmt::Formatter<'_>) -> fmt::Result {
        self.refusal.fmt(f)
    }
}

impl Error for Unfinished<'_> {}

impl From<Unfinished<'_>> for Refusal {
    fn from(unfinished: Unfinished<'_>) -> Refusal {
        unfinished.refusal
    }
}
