//! The header's frames, and what judging answers.

use std::array;
use std::fmt;

use crate::answers;
use crate::raw::READ_NUMBERS;
use crate::refusal::Refusal;

/// One of the eight header frames: where it stands and its type code.
#[derive(Clone, Copy, Debug, PartialEq, Eq, Hash)]
pub struct Frame {
    place: u32,
    code: u8,
}

impl Frame {
    /// The place of its first byte in the message.
    #[must_use]
    pub const fn place(self) -> usize {
        self.place as usize
    }

    /// Its type code; frame 0 has 9, as a string does.
    #[must_use]
    pub const fn code(self) -> u8 {
        self.code
    }
}

/// What is known of an accepted message without a table of its fields.
#[derive(Clone, Copy, Debug, PartialEq, Eq, Hash)]
pub struct Summary {
    length: u32,
    fields: u32,
    steps: u32,
    frames: [Frame; 8],
}

impl Summary {
    /// The number of bytes of the message.
    #[must_use]
    pub const fn length(&self) -> usize {
        self.length as usize
    }

    /// The number of its fields, 0 to 256.
    #[must_use]
    pub const fn fields(&self) -> usize {
        self.fields as usize
    }

    /// The steps of reading it: its frames, its fields and its marks, counted together.
    #[must_use]
    pub const fn steps(&self) -> usize {
        self.steps as usize
    }

    /// The header's eight frames.
    #[must_use]
    pub const fn frames(&self) -> &[Frame; 8] {
        &self.frames
    }

    /// The summary that the numbers of a granted answer tell. None of them is above 65,536.
    pub(crate) fn answered(answer: &[u64; READ_NUMBERS]) -> Summary {
        let frame =
            |i: usize| Frame { place: answer[5 + 2 * i] as u32, code: answer[6 + 2 * i] as u8 };
        Summary {
            length: answer[2] as u32,
            fields: answer[3] as u32,
            steps: answer[4] as u32,
            frames: array::from_fn(frame),
        }
    }
}

/// Judges a message as [`read`](crate::read) does, and keeps no table of its fields.
///
/// ```
/// # let s: &[u8] = b"\x09\0\0\0\x05SIM01\x09\0\0\0\x09IDVV.14.2\x09\0\0\0\x04MC.1\
/// #     \x09\0\0\0\x05MM1.4\x09\0\0\0\x06DSOL.3\x03\0\0\0\0\0\0\0\x7C\0\x02\x01\0\x01\
/// #     \x05\x3F\xC9\x99\x99\x99\x99\x99\x9A";
/// let summary = sim0mq::judge(s)?;
/// assert_eq!((summary.length(), summary.fields(), summary.steps()), (77, 1, 9));
/// # Ok::<(), sim0mq::Refusal>(())
/// ```
///
/// # Errors
///
/// The refusal of the first fault, by 1 to 13.
pub fn judge(message: &[u8]) -> Result<Summary, Refusal> {
    answers::judge(message).map(|answer| Summary::answered(&answer))
}

/// One of the four ids in the header: a string or a number. `Debug` shows neither.
#[derive(Clone, Copy)]
pub struct Id<'m> {
    frame: Frame,
    encoded: &'m [u8],
}

impl<'m> Id<'m> {
    /// The id that stands in `frame`, whose encoded bytes these are.
    pub(crate) const fn of(frame: Frame, encoded: &'m [u8]) -> Id<'m> {
        Id { frame, encoded }
    }

    /// Its type code: 9 or 10 for a string with characters of one or two bytes, 1 or 2 for a
    /// number of two or four bytes.
    #[must_use]
    pub const fn code(self) -> u8 {
        self.frame.code
    }

    /// The place of its frame in the message.
    #[must_use]
    pub const fn place(self) -> usize {
        self.frame.place()
    }

    /// The whole frame: the type code, the count of a string, and the bytes of the id.
    #[must_use]
    pub const fn encoded(self) -> &'m [u8] {
        self.encoded
    }

    /// The bytes of the id itself: the text of a string, or the number, big-endian.
    #[must_use]
    pub fn bytes(self) -> &'m [u8] {
        match self.code() {
            9 | 10 => &self.encoded[5..],
            _ => &self.encoded[1..],
        }
    }

    /// The number, where the id is one (codes 1 and 2).
    #[must_use]
    pub fn number(self) -> Option<i32> {
        match *self.encoded {
            [1, a, b] => Some(i32::from(i16::from_be_bytes([a, b]))),
            [2, a, b, c, d] => Some(i32::from_be_bytes([a, b, c, d])),
            _ => None,
        }
    }
}

impl fmt::Debug for Id<'_> {
    fn fmt(&self, f: &mut fmt::Formatter<'_>) -> fmt::Result {
        f.debug_struct("Id")
            .field("code", &self.code())
            .field("place", &self.place())
            .field("len", &self.bytes().len())
            .finish()
    }
}
