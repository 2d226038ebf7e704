//! Sim0MQ typed messages (big-endian, manual version 1.5): reading, asking, blanking and writing
//! them, and what is done with them.
//!
//! This crate is a thin cover over the library in `libsim0mq.a`, whose calls are proved to end, to
//! be safe and to answer as they say, on every input. Nothing of the format is decided here: the
//! cover hands slices over, and turns the numbers that come back into types. It keeps nothing
//! between calls, and every type may go to another thread.
//!
//! | Call | Answer |
//! |---|---|
//! | [`read`] | a [`Message`]: its header, and each [`Field`] with its place and its bytes |
//! | [`judge`] | a [`Summary`]: the same measures, and no table of the fields |
//! | [`value()`], [`view`] | the [`Value`] of field k where it is a scalar; its value bytes |
//! | [`blank`], [`blanked`] | the copy of the message with zero in every value byte |
//! | [`Writer`] | a message, opened with a [`Header`], filled field by field, and closed |
//! | [`Recording`], [`message_of`] | the messages of a recording; one of them alone |
//! | [`Recorder`] | a recording, written message by message |
//! | [`salvage()`] | a [`Salvaged`]: the recording of the messages at the front of a cut file |
//! | [`command()`] | which [`Command`] of the manual's chapter 4 a message is |
//! | [`sum`], [`difference`] | of two quantities, the [`Value`] with its unit |
//! | [`Senders`] | a book of senders, by which a message that comes again is refused |
//! | [`Ledger`], [`reckon`] | the heads on each deck, by musters one by one; by those of a recording |
//!
//! Each is refused by a [`Refusal`], a number and a place, and what was lent is then as it was.
//!
//! The message of the manual's section 2.3.6, whose one field is the double 0.2:
//!
//! ```
//! use sim0mq::Value;
//!
//! let s: &[u8] = b"\x09\0\0\0\x05SIM01\x09\0\0\0\x09IDVV.14.2\x09\0\0\0\x04MC.1\
//!     \x09\0\0\0\x05MM1.4\x09\0\0\0\x06DSOL.3\x03\0\0\0\0\0\0\0\x7C\0\x02\x01\0\x01\
//!     \x05\x3F\xC9\x99\x99\x99\x99\x99\x9A";
//!
//! let message = sim0mq::read(s)?;
//! assert_eq!((message.length(), message.steps()), (77, 9));
//! assert_eq!(message.receiver().bytes(), b"MM1.4");
//! for field in &message {
//!     assert_eq!((field.code(), field.place(), field.first(), field.len()), (5, 68, 69, 8));
//!     assert_eq!(field.bytes(), &s[69..]);
//!     assert_eq!(field.value()?, Value::Double(0.2));
//! }
//! # Ok::<(), sim0mq::Refusal>(())
//! ```
//!
//! # Reports without a name in them
//!
//! `Debug` of every type shows kinds, places and lengths, and no value, text, id or number that a
//! message carries; a refusal has no byte of the message in it. So what is logged of a message
//! tells how it is built and nothing else. To show somebody a whole message, hand over its
//! [`blanked`] copy, whose header, ids included, is still the message's.
//!
//! # Linking
//!
//! The build links `libsim0mq.a` from the folder that `SIM0MQ_LIB_DIR` names, and where it is not
//! set from `target/native` at the root of the repository, where `tools/native-library` puts it.
#![deny(missing_docs)]
#![deny(unsafe_code)]
#![deny(unsafe_op_in_unsafe_fn)]

mod answers;
mod asking;
mod blanking;
mod command;
mod field;
mod frames;
mod ledger;
mod message;
#[allow(unsafe_code)]
pub mod raw;
mod recorder;
mod recording;
mod refusal;
mod salvage;
mod senders;
mod sums;
mod value;
mod writer;

pub use asking::{value, view};
pub use blanking::{blank, blanked};
pub use command::{command, Command};
pub use field::{Field, Fields};
pub use frames::{judge, Frame, Id, Summary};
pub use ledger::{reckon, Ledger, Reckoned, DECKS};
pub use message::{read, Message};
pub use recorder::Recorder;
pub use recording::{message_of, Messages, Recording};
pub use refusal::{Refusal, RefusalKind};
pub use salvage::{salvage, Salvaged, Stop};
pub use senders::Senders;
pub use sums::{difference, sum};
pub use value::{Mark, Value};
pub use writer::{Header, Unfinished, Writer};

/// The most bytes that a message has.
pub const MOST_BYTES: usize = 65_536;

/// The most fields that a message has.
pub const MOST_FIELDS: usize = 256;

/// The most messages that a recording has.
pub const MOST_MESSAGES: usize = 4_096;
