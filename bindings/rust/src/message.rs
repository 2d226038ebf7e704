//! Reading: an accepted message with the table of its fields.

use std::fmt;

use crate::answers;
use crate::field::{Field, Fields, ROW_NUMBERS};
use crate::frames::{Frame, Id, Summary};
use crate::refusal::Refusal;
use crate::writer::Header;
use crate::MOST_FIELDS;

/// Reads a message.
///
/// ```
/// # let s: &[u8] = b"\x09\0\0\0\x05SIM01\x09\0\0\0\x09IDVV.14.2\x09\0\0\0\x04MC.1\
/// #     \x09\0\0\0\x05MM1.4\x09\0\0\0\x06DSOL.3\x03\0\0\0\0\0\0\0\x7C\0\x02\x01\0\x01\
/// #     \x05\x3F\xC9\x99\x99\x99\x99\x99\x9A";
/// let message = sim0mq::read(s)?;
/// assert_eq!((message.number(), message.status(), message.fields().len()), (124, 2, 1));
/// assert_eq!(message.sender().bytes(), b"MC.1");
///
/// let cut = sim0mq::read(&s[..76]).unwrap_err();
/// assert_eq!((cut.number(), cut.place()), (1, 76));
/// # Ok::<(), sim0mq::Refusal>(())
/// ```
///
/// # Errors
///
/// The refusal of the first fault, by 1 to 13.
pub fn read(message: &[u8]) -> Result<Message<'_>, Refusal> {
    // The table has room for the most fields, so that one call is enough. To clear it costs a tenth
    // of reading a short message; a shorter one, refused by 14, would cost a second reading of the
    // header. The message keeps the rows of its own fields alone.
    let mut table = [0; MOST_FIELDS * ROW_NUMBERS];
    let summary = Summary::answered(&answers::read(message, &mut table)?);
    let rows = table[..summary.fields() * ROW_NUMBERS].into();
    Ok(Message { bytes: message, summary, rows })
}

/// An accepted message: its bytes, its frames and its fields.
///
/// It borrows the bytes and copies none. `Debug` shows its measures, and nothing that it carries.
#[derive(Clone)]
pub struct Message<'m> {
    bytes: &'m [u8],
    summary: Summary,
    rows: Box<[u32]>,
}

impl<'m> Message<'m> {
    /// The bytes of the message.
    #[must_use]
    pub const fn bytes(&self) -> &'m [u8] {
        self.bytes
    }

    /// The number of its bytes.
    #[must_use]
    pub const fn length(&self) -> usize {
        self.summary.length()
    }

    /// The steps of reading it: its frames, its fields and its marks, counted together.
    #[must_use]
    pub const fn steps(&self) -> usize {
        self.summary.steps()
    }

    /// The header's eight frames.
    #[must_use]
    pub const fn frames(&self) -> &[Frame; 8] {
        self.summary.frames()
    }

    /// What [`judge`](crate::judge) answers of this message.
    #[must_use]
    pub const fn summary(&self) -> &Summary {
        &self.summary
    }

    /// Its fields, in their order.
    #[inline]
    #[must_use]
    pub fn fields(&self) -> Fields<'_, 'm> {
        Fields::of(self.bytes, &self.rows)
    }

    /// Field k, counted from 0, or `None` where there are not as many.
    #[inline]
    #[must_use]
    pub fn field(&self, k: usize) -> Option<Field<'m>> {
        self.fields().nth(k)
    }

    /// The id of the simulation run: frame 1.
    #[must_use]
    pub fn run(&self) -> Id<'m> {
        self.id(1)
    }

    /// The id of the sender: frame 2.
    #[must_use]
    pub fn sender(&self) -> Id<'m> {
        self.id(2)
    }

    /// The id of the receiver: frame 3.
    #[must_use]
    pub fn receiver(&self) -> Id<'m> {
        self.id(3)
    }

    /// The id of the message type: frame 4.
    #[must_use]
    pub fn message_type(&self) -> Id<'m> {
        self.id(4)
    }

    /// The frames of the four ids in one piece, as [`Header::ids`] has them.
    #[must_use]
    pub fn ids(&self) -> &'m [u8] {
        self.part(1, 5)
    }

    /// The message number: frame 5.
    #[must_use]
    pub fn number(&self) -> i64 {
        // Frame 5 is its type code and eight bytes.
        let mut number = [0; 8];
        number.copy_from_slice(&self.part(5, 6)[1..]);
        i64::from_be_bytes(number)
    }

    /// The status, 1 to 3: frame 6.
    #[must_use]
    pub fn status(&self) -> u8 {
        self.part(6, 7)[1]
    }

    /// The type code of the field count, 0, 1 or 2: frame 7.
    #[must_use]
    pub const fn count_type(&self) -> u8 {
        self.frames()[7].code()
    }

    /// The header by which [`Writer::open`](crate::Writer::open) writes this message's own anew.
    #[must_use]
    pub fn header(&self) -> Header<'m> {
        Header {
            ids: self.ids(),
            number: self.number(),
            status: self.status(),
            fields: self.summary.fields(),
            count_type: Some(self.count_type()),
        }
    }

    /// The id in frame i, 1 to 4.
    fn id(&self, i: usize) -> Id<'m> {
        Id::of(self.frames()[i], self.part(i, i + 1))
    }

    /// The bytes from frame i up to frame j.
    fn part(&self, i: usize, j: usize) -> &'m [u8] {
        &self.bytes[self.frames()[i].place()..self.frames()[j].place()]
    }
}

impl fmt::Debug for Message<'_> {
    fn fmt(&self, f: &mut fmt::Formatter<'_>) -> fmt::Result {
        f.debug_struct("Message")
            .field("length", &self.length())
            .field("fields", &self.summary.fields())
            .field("steps", &self.steps())
            .finish_non_exhaustive()
    }
}

impl<'r, 'm> IntoIterator for &'r Message<'m> {
    type Item = Field<'m>;
    type IntoIter = Fields<'r, 'm>;

    fn into_iter(self) -> Fields<'r, 'm> {
        self.fields()
    }
}
