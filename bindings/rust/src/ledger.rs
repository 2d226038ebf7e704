//! The deck ledger: how many heads are on each deck, by the musters that were sent.

use std::fmt;

use crate::answers;
use crate::raw;
use crate::recording::Recording;
use crate::refusal::Refusal;
use crate::senders::Senders;

/// The number of decks, which are counted from 0.
pub const DECKS: usize = raw::DECKS;

/// The heads on each deck, with the book of senders by which each muster is taken once.
///
/// A refused message leaves both as they were. `Debug` shows how many senders the book holds, and
/// no deck's heads, since messages said them.
///
/// ```
/// use sim0mq::{Ledger, RefusalKind};
///
/// // Number 1 of the sender GATE: new, and the deck joined is 7.
/// let message = b"\x09\0\0\0\x05SIM01\x01\0\x01\x09\0\0\0\x04GATE\x01\0\x02\x09\0\0\0\x05MUS.1\
///     \x03\0\0\0\0\0\0\0\x01\0\x01\0\x01\0\x07";
/// let mut ledger = Ledger::new();
/// ledger.muster(message)?;
/// assert_eq!(ledger.heads(7), Some(1));
///
/// let again = ledger.muster(message).unwrap_err();
/// assert_eq!((again.kind(), ledger.heads(7)), (RefusalKind::NumberNotGreater, Some(1)));
/// # Ok::<(), sim0mq::Refusal>(())
/// ```
#[derive(Clone, PartialEq, Eq)]
pub struct Ledger {
    decks: [u16; DECKS],
    senders: Senders,
}

impl Ledger {
    /// The ledger of no head, with the book of no sender.
    #[must_use]
    pub const fn new() -> Ledger {
        Ledger { decks: [0; DECKS], senders: Senders::new() }
    }

    /// Musters a message of the type `MUS.1`: a new has one head join a deck, a change has one join
    /// a deck and leave another, a delete has one leave. Answers the sender's place in the book, 0
    /// to 31.
    ///
    /// # Errors
    ///
    /// The refusal of reading; then 20 where its type is another, 21 for the number of its fields,
    /// 22 for a field that is no byte, 29 where there is no such deck, 30 where no head is on the
    /// deck left, 31 where the deck joined is full; then those of [`Senders::take`]. The ledger and
    /// its book are then as they were.
    pub fn muster(&mut self, message: &[u8]) -> Result<usize, Refusal> {
        answers::muster(&mut self.decks, self.senders.book(), message)
    }

    /// The heads on a deck, or `None` where there is no such deck.
    #[must_use]
    pub fn heads(&self, deck: usize) -> Option<u16> {
        self.decks.get(deck).copied()
    }

    /// The heads on each deck.
    #[must_use]
    pub const fn decks(&self) -> [u16; DECKS] {
        self.decks
    }

    /// The book of senders, with the last number mustered from each.
    #[must_use]
    pub const fn senders(&self) -> &Senders {
        &self.senders
    }
}

impl Default for Ledger {
    fn default() -> Ledger {
        Ledger::new()
    }
}

impl fmt::Debug for Ledger {
    fn fmt(&self, f: &mut fmt::Formatter<'_>) -> fmt::Result {
        f.debug_struct("Ledger").field("senders", &self.senders).finish_non_exhaustive()
    }
}

/// What a recording comes to, mustered from the empty ledger. `Debug` shows the two counts, and no
/// deck's heads.
#[derive(Clone, PartialEq, Eq)]
pub struct Reckoned {
    applied: usize,
    refused: usize,
    ledger: Ledger,
}

impl Reckoned {
    /// The number of messages applied.
    #[must_use]
    pub const fn applied(&self) -> usize {
        self.applied
    }

    /// The number of messages refused and passed over.
    #[must_use]
    pub const fn refused(&self) -> usize {
        self.refused
    }

    /// The ledger after the messages, and its book, to read or to clone and go on with.
    #[must_use]
    pub const fn ledger(&self) -> &Ledger {
        &self.ledger
    }
}

impl fmt::Debug for Reckoned {
    fn fmt(&self, f: &mut fmt::Formatter<'_>) -> fmt::Result {
        f.debug_struct("Reckoned")
            .field("applied", &self.applied)
            .field("refused", &self.refused)
            .finish_non_exhaustive()
    }
}

/// Musters the messages of a recording in order, from the empty ledger; one that is refused is
/// passed over.
///
/// The library has one call for it, [`raw::reckon`](crate::raw::reckon), which answers the same
/// counts and heads, and no book.
///
/// ```
/// # let s: &[u8] = b"\x09\0\0\0\x05SIM01\x09\0\0\0\x09IDVV.14.2\x09\0\0\0\x04MC.1\
/// #     \x09\0\0\0\x05MM1.4\x09\0\0\0\x06DSOL.3\x03\0\0\0\0\0\0\0\x7C\0\x02\x01\0\x01\
/// #     \x05\x3F\xC9\x99\x99\x99\x99\x99\x9A";
/// # let message = b"\x09\0\0\0\x05SIM01\x01\0\x01\x09\0\0\0\x04GATE\x01\0\x02\x09\0\0\0\x05MUS.1\
/// #     \x03\0\0\0\0\0\0\0\x01\0\x01\0\x01\0\x07";
/// let mut recorder = sim0mq::Recorder::new();
/// recorder.add(s)?; // no muster
/// recorder.add(message)?; // one head joins deck 7
///
/// let reckoned = sim0mq::reckon(&recorder.finish()?)?;
/// assert_eq!((reckoned.applied(), reckoned.refused()), (1, 1));
/// assert_eq!(reckoned.ledger().heads(7), Some(1));
/// # Ok::<(), sim0mq::Refusal>(())
/// ```
///
/// # Errors
///
/// Those of [`Recording::open`].
pub fn reckon(recording: &[u8]) -> Result<Reckoned, Refusal> {
    let recording = Recording::open(recording)?;
    let mut ledger = Ledger::new();
    let applied = recording.iter().filter(|message| ledger.muster(message).is_ok()).count();
    Ok(Reckoned { applied, refused: recording.len() - applied, ledger })
}
