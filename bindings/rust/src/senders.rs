//! The book of senders, by which a message that comes again is told.

use std::fmt;

use crate::answers;
use crate::raw::BOOK_NUMBERS;
use crate::refusal::Refusal;

/// The book's numbers for each of its places; the first of them is 0 where the place is free.
const SENDER_NUMBERS: usize = 8;

/// A book of up to 32 senders, with the last message number taken from each.
///
/// A refused message leaves it as it was. `Debug` shows how many senders are held, and none of
/// them.
///
/// ```
/// # let s: &[u8] = b"\x09\0\0\0\x05SIM01\x09\0\0\0\x09IDVV.14.2\x09\0\0\0\x04MC.1\
/// #     \x09\0\0\0\x05MM1.4\x09\0\0\0\x06DSOL.3\x03\0\0\0\0\0\0\0\x7C\0\x02\x01\0\x01\
/// #     \x05\x3F\xC9\x99\x99\x99\x99\x99\x9A";
/// use sim0mq::{RefusalKind, Senders};
///
/// let mut senders = Senders::new();
/// assert_eq!(senders.take(s)?, 0);
/// let again = senders.take(s).unwrap_err();
/// assert_eq!((again.kind(), again.place()), (RefusalKind::NumberNotGreater, 54));
///
/// assert_eq!(senders.close(9, b"MC.1")?, 1);
/// assert_eq!(senders.take(s)?, 0);
/// # Ok::<(), sim0mq::Refusal>(())
/// ```
#[derive(Clone, PartialEq, Eq)]
pub struct Senders {
    book: [u64; BOOK_NUMBERS],
}

impl Senders {
    /// The book of no sender.
    #[must_use]
    pub const fn new() -> Senders {
        Senders { book: [0; BOOK_NUMBERS] }
    }

    /// Takes a message, where its number is greater than the one held of its sender, or the sender
    /// is new; answers the sender's place in the book, 0 to 31.
    ///
    /// # Errors
    ///
    /// The refusal of reading; then 26 where the sender's id has more than 32 value bytes, 27 where
    /// the number is not greater, 28 where the sender is new and no place is free. The book is then
    /// as it was.
    pub fn take(&mut self, message: &[u8]) -> Result<usize, Refusal> {
        answers::take(&mut self.book, message)
    }

    /// Closes the sender whose id has this type code and these value bytes, as
    /// [`Id::code`](crate::Id::code) and [`Id::bytes`](crate::Id::bytes) tell them: its place is
    /// free then, and its numbers start afresh. Answers how many senders were closed: 1 where this
    /// one was held, and else 0.
    ///
    /// # Errors
    ///
    /// None that is known: closing is refused by 14 for a book that is too short, and no book here
    /// is.
    pub fn close(&mut self, code: u8, id: &[u8]) -> Result<usize, Refusal> {
        answers::close_sender(&mut self.book, code.into(), id)
    }

    /// The number of senders held, 0 to 32.
    #[must_use]
    pub fn len(&self) -> usize {
        self.book.chunks_exact(SENDER_NUMBERS).filter(|place| place[0] != 0).count()
    }

    /// Whether no sender is held.
    #[must_use]
    pub fn is_empty(&self) -> bool {
        self.len() == 0
    }

    /// The book's numbers, for a call that takes them.
    pub(crate) fn book(&mut self) -> &mut [u64] {
        &mut self.book
    }
}

impl Default for Senders {
    fn default() -> Senders {
        Senders::new()
    }
}

impl fmt::Debug for Senders {
    fn fmt(&self, f: &mut fmt::Formatter<'_>) -> fmt::Result {
        f.debug_struct("Senders").field("held", &self.len()).finish()
    }
}
