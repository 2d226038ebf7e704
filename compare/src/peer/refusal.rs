//! Refusals: a number, a place and nothing more.

use std::fmt;

/// Why a call was refused and where.
#[derive(Clone, Copy, Debug, PartialEq, Eq, Hash)]
pub struct Refusal {
    /// 1 to 31.
    pub number: u32,
    /// The place that the number's rule names.
    pub place: u64,
}

/// What each refusal number means; entry 0 stands for acceptance.
pub const MEANINGS: [&str; 32] = [
    "accepted",
    "the bytes end before the item being read",
    "frame 0 has a wrong byte or no digit",
    "the digits of frame 0 are not 01",
    "a type code is not allowed in this frame",
    "a count is negative",
    "the status is not 1 to 3",
    "there are too many fields",
    "the message has more than 65536 bytes",
    "a field code is above 32",
    "a Boolean byte is above 1",
    "a unit type is unknown",
    "a display code is outside its range",
    "bytes follow the last item",
    "the lent output is too short",
    "the call does not fit the state",
    "there is no such field or message",
    "the value is not of the kind asked or allowed",
    "the trailer or the index of a recording is wrong",
    "a currency code is not listed",
    "the message type is unknown",
    "the status or the number of fields is wrong",
    "a field's code is wrong",
    "a string is empty or not one of its words",
    "the quantities cannot be combined",
    "an operand or the result is infinite or a NaN",
    "the sender's id is too long",
    "the message's number is not greater",
    "the book is full",
    "there is no such deck",
    "no head is on the deck left",
    "the deck joined is full",
];

impl Refusal {
    /// A refusal with this number at this place.
    #[must_use]
    pub const fn new(number: u32, place: usize) -> Self {
        Refusal { number, place: place as u64 }
    }

    /// The refusal of bytes that end before the item being read.
    #[must_use]
    pub const fn ended(bytes: &[u8]) -> Self {
        Refusal::new(1, bytes.len())
    }

    /// The meaning of the number in words.
    #[must_use]
    pub fn meaning(self) -> &'static str {
        MEANINGS.get(self.number as usize).copied().unwrap_or("unknown refusal")
    }
}

impl fmt::Display for Refusal {
    fn fmt(&self, f: &mut fmt::Formatter<'_>) -> fmt::Result {
        write!(f, "refused {} at {}: {}", self.number, self.place, self.meaning())
    }
}

impl std::error::Error for Refusal {}
