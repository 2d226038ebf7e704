//! What a refused call answers: a number and a place.

use std::error::Error;
use std::fmt;

/// Why a call was refused, as one of the thirty-one numbers, 1 to 31.
#[derive(Clone, Copy, Debug, PartialEq, Eq, PartialOrd, Ord, Hash)]
#[repr(u8)]
pub enum RefusalKind {
    /// 1: the bytes end where an item still has to come. The place is their length.
    EndsEarly = 1,
    /// 2: frame 0 has a byte that cannot stand there. The place is that byte.
    WrongStart = 2,
    /// 3: frame 0 names an edition other than `01`. The place is 8.
    WrongEdition = 3,
    /// 4: this header frame cannot have this type code. The place is that byte, and 0 where it is
    /// the count type that a [`Writer`](crate::Writer) was asked for.
    TypeCode = 4,
    /// 5: a count is below zero. The place is its first byte.
    NegativeCount = 5,
    /// 6: the status is none of 1, 2 and 3. The place is that byte, and 0 in the writer.
    Status = 6,
    /// 7: more than 256 fields are declared, or more than the count's type can say. The place is
    /// the first byte of the count, and 0 in the writer.
    TooManyFields = 7,
    /// 8: the message has more than 65,536 bytes, or than 32,768 in a recording of edition 1. The
    /// place is 0, and in a recording where the message begins.
    TooLong = 8,
    /// 9: no field has this code. The place is that byte.
    FieldCode = 9,
    /// 10: the byte of a Boolean is neither 0 nor 1. The place is that byte.
    Boolean = 10,
    /// 11: there is no such unit type. The place is that byte.
    UnitType = 11,
    /// 12: a mark's display code is out of range. The place is that byte.
    DisplayCode = 12,
    /// 13: something follows the last item. The place is its first byte.
    BytesLeft = 13,
    /// 14: the lent output has not the room. The place is 0.
    NoRoom = 14,
    /// 15: the writer or the recorder is not in a state for this call, as a recorder for a 4,097th
    /// message. The place is 0.
    WriterState = 15,
    /// 16: the message has no field of this number, or the recording no message. The place is 0.
    NoField = 16,
    /// 17: the field is no scalar, or the scalar is none that can be written. The place is 0.
    WrongKind = 17,
    /// 18: a recording's trailer or index is wrong, or it has more than 4,096 entries. The place is
    /// 0.
    Tail = 18,
    /// 19: a mark's currency code is none of the manual's list. The place is its first byte.
    CurrencyCode = 19,
    /// 20: the message type is no command's, or no muster's, or no 8-bit string. The place is the
    /// type frame.
    MessageType = 20,
    /// 21: a command's status, or its or a muster's number of fields is wrong. The place is the type
    /// frame.
    CommandShape = 21,
    /// 22: a field of a command or of a muster has a wrong code, or its mark a wrong unit type. The
    /// place is the field's code byte.
    CommandCode = 22,
    /// 23: a command's string is empty, or none of its words. The place is the field's code byte.
    CommandText = 23,
    /// 24: two quantities that cannot be combined by this sum or difference. The place is 0.
    NotCombined = 24,
    /// 25: an operand of a sum or a difference, or its result, is infinite or a NaN. The place is 0.
    NotFinite = 25,
    /// 26: a sender's id has more than 32 value bytes. The place is the sender frame.
    LongSender = 26,
    /// 27: a message's number is not greater than the last taken from its sender. The place is the
    /// number frame.
    NumberNotGreater = 27,
    /// 28: the sender is new, and the book of senders has no place free. The place is the sender
    /// frame.
    BookFull = 28,
    /// 29: there is no such deck. The place is the code byte of the field that names it.
    NoDeck = 29,
    /// 30: no head is on the deck left. The place is the code byte of the field that names it.
    NoHead = 30,
    /// 31: the deck joined is full. The place is the code byte of the field that names it.
    DeckFull = 31,
}

impl RefusalKind {
    /// All thirty-one, in the order of their numbers.
    pub const ALL: [RefusalKind; 31] = [
        RefusalKind::EndsEarly,
        RefusalKind::WrongStart,
        RefusalKind::WrongEdition,
        RefusalKind::TypeCode,
        RefusalKind::NegativeCount,
        RefusalKind::Status,
        RefusalKind::TooManyFields,
        RefusalKind::TooLong,
        RefusalKind::FieldCode,
        RefusalKind::Boolean,
        RefusalKind::UnitType,
        RefusalKind::DisplayCode,
        RefusalKind::BytesLeft,
        RefusalKind::NoRoom,
        RefusalKind::WriterState,
        RefusalKind::NoField,
        RefusalKind::WrongKind,
        RefusalKind::Tail,
        RefusalKind::CurrencyCode,
        RefusalKind::MessageType,
        RefusalKind::CommandShape,
        RefusalKind::CommandCode,
        RefusalKind::CommandText,
        RefusalKind::NotCombined,
        RefusalKind::NotFinite,
        RefusalKind::LongSender,
        RefusalKind::NumberNotGreater,
        RefusalKind::BookFull,
        RefusalKind::NoDeck,
        RefusalKind::NoHead,
        RefusalKind::DeckFull,
    ];

    /// The kind with this number, or `None` where the number is not 1 to 31.
    #[must_use]
    pub fn of(number: u8) -> Option<RefusalKind> {
        RefusalKind::ALL.into_iter().find(|kind| kind.number() == number)
    }

    /// Its number, 1 to 31.
    #[must_use]
    pub const fn number(self) -> u8 {
        self as u8
    }

    /// What it means, in a few fixed words. They hold nothing of any message.
    #[must_use]
    pub const fn meaning(self) -> &'static str {
        match self {
            RefusalKind::EndsEarly => "the bytes end too early",
            RefusalKind::WrongStart => "not the start of a message",
            RefusalKind::WrongEdition => "edition not 01",
            RefusalKind::TypeCode => "type code that this frame cannot have",
            RefusalKind::NegativeCount => "negative count",
            RefusalKind::Status => "status not 1 to 3",
            RefusalKind::TooManyFields => "too many fields",
            RefusalKind::TooLong => "message above 65,536 bytes",
            RefusalKind::FieldCode => "unknown field code",
            RefusalKind::Boolean => "Boolean neither 0 nor 1",
            RefusalKind::UnitType => "unknown unit type",
            RefusalKind::DisplayCode => "display code out of range",
            RefusalKind::BytesLeft => "bytes left after the last item",
            RefusalKind::NoRoom => "output too short",
            RefusalKind::WriterState => "call out of turn in the writer or the recorder",
            RefusalKind::NoField => "no such field or message",
            RefusalKind::WrongKind => "not a scalar that can be asked or written",
            RefusalKind::Tail => "trailer or index of a recording wrong",
            RefusalKind::CurrencyCode => "unknown currency code",
            RefusalKind::MessageType => "message type that is not known here",
            RefusalKind::CommandShape => "wrong status or number of fields",
            RefusalKind::CommandCode => "field code that cannot stand here",
            RefusalKind::CommandText => "string empty or not of its set of words",
            RefusalKind::NotCombined => "quantities that cannot be combined",
            RefusalKind::NotFinite => "infinite or not a number in a sum",
            RefusalKind::LongSender => "sender id above 32 bytes",
            RefusalKind::NumberNotGreater => "message number not greater",
            RefusalKind::BookFull => "no place free for a new sender",
            RefusalKind::NoDeck => "no such deck",
            RefusalKind::NoHead => "no head on the deck left",
            RefusalKind::DeckFull => "the deck joined is full",
        }
    }
}

impl fmt::Display for RefusalKind {
    fn fmt(&self, f: &mut fmt::Formatter<'_>) -> fmt::Result {
        f.write_str(self.meaning())
    }
}

/// A refusal: why, and where. Nothing that was lent has changed, and no byte of the message is in
/// it, so that it may be printed and sent on.
///
/// ```
/// use sim0mq::{judge, Refusal, RefusalKind};
///
/// let refusal = judge(b"").unwrap_err();
/// assert_eq!(refusal.number(), 1);
/// assert_eq!(refusal.place(), 0);
/// assert_eq!(refusal.kind(), RefusalKind::EndsEarly);
/// assert_eq!(refusal.to_string(), "refused 1 at 0: the bytes end too early");
///
/// let status = Refusal::new(RefusalKind::Status, 64);
/// assert_eq!(status.to_string(), "refused 6 at 64: status not 1 to 3");
/// ```
#[derive(Clone, Copy, Debug, PartialEq, Eq, Hash)]
pub struct Refusal {
    kind: RefusalKind,
    place: usize,
}

impl Refusal {
    /// The refusal of this kind at this place.
    #[must_use]
    pub const fn new(kind: RefusalKind, place: usize) -> Refusal {
        Refusal { kind, place }
    }

    /// Its number, 1 to 31.
    #[must_use]
    pub const fn number(self) -> u8 {
        self.kind.number()
    }

    /// Why the call was refused.
    #[must_use]
    pub const fn kind(self) -> RefusalKind {
        self.kind
    }

    /// Where the fault is, counted in bytes from 0: in the message, the recording or the file that
    /// was judged, or, with the writer, in the ids or the encoded field it was handed.
    #[must_use]
    pub const fn place(self) -> usize {
        self.place
    }

    /// The refusal that the library answered by this number, not 0, and this place.
    pub(crate) fn answered(number: u32, place: u64) -> Refusal {
        let kind = u8::try_from(number).ok().and_then(RefusalKind::of);
        // The one other number is 255, for an answer that was lent too short; none here is.
        let kind = kind.expect("a refusal has a listed number");
        // A place is at most the length of a slice that was lent.
        Refusal { kind, place: place as usize }
    }
}

impl fmt::Display for Refusal {
    fn fmt(&self, f: &mut fmt::Formatter<'_>) -> fmt::Result {
        write!(f, "refused {} at {}: {}", self.number(), self.place, self.kind)
    }
}

impl Error for Refusal {}
