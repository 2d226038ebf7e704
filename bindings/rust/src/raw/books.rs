//! The calls that keep a book of senders, and the deck ledger.

/// How many numbers a book of senders has. The empty book has 0 in each.
pub const BOOK_NUMBERS: usize = 256;

/// How many numbers [`take`] and [`close_sender`] answer.
pub const TAKE_NUMBERS: usize = 3;

/// How many numbers a deck ledger has, of 16 bits each. The empty ledger has 0 in each.
pub const DECKS: usize = 16;

/// How many numbers [`muster`] answers.
pub const MUSTER_NUMBERS: usize = 3;

/// How many numbers [`reckon`] answers.
pub const RECKON_NUMBERS: usize = 20;

extern "C" {
    fn sim0mq_take(
        book: *mut u64,
        book_len: usize,
        message: *const u8,
        message_len: usize,
        answer: *mut u64,
        answer_len: usize,
    ) -> u32;
    fn sim0mq_close_sender(
        book: *mut u64,
        book_len: usize,
        code: u64,
        id: *const u8,
        id_len: usize,
        answer: *mut u64,
        answer_len: usize,
    ) -> u32;
    fn sim0mq_muster(
        decks: *mut u16,
        decks_len: usize,
        book: *mut u64,
        book_len: usize,
        message: *const u8,
        message_len: usize,
        answer: *mut u64,
        answer_len: usize,
    ) -> u32;
    fn sim0mq_reckon(
        recording: *const u8,
        recording_len: usize,
        answer: *mut u64,
        answer_len: usize,
    ) -> u32;
}

/// Takes a message into a book of senders.
pub fn take(book: &mut [u64], message: &[u8], answer: &mut [u64]) -> u32 {
    let (places, room) = (book.as_mut_ptr(), book.len());
    let (numbers, many) = (answer.as_mut_ptr(), answer.len());
    // SAFETY: each pointer and the length after it are of one slice, borrowed until the call ends.
    unsafe { sim0mq_take(places, room, message.as_ptr(), message.len(), numbers, many) }
}

/// Closes a sender in a book of senders.
pub fn close_sender(book: &mut [u64], code: u64, id: &[u8], answer: &mut [u64]) -> u32 {
    let (places, room) = (book.as_mut_ptr(), book.len());
    let (numbers, many) = (answer.as_mut_ptr(), answer.len());
    // SAFETY: as in `take`.
    unsafe { sim0mq_close_sender(places, room, code, id.as_ptr(), id.len(), numbers, many) }
}

/// Musters a message: judged by the ledger, taken by the book of senders, and applied.
pub fn muster(decks: &mut [u16], book: &mut [u64], message: &[u8], answer: &mut [u64]) -> u32 {
    let (heads, many_decks) = (decks.as_mut_ptr(), decks.len());
    let (places, room) = (book.as_mut_ptr(), book.len());
    let (bytes, length) = (message.as_ptr(), message.len());
    let (numbers, many) = (answer.as_mut_ptr(), answer.len());
    // SAFETY: as in `take`.
    unsafe { sim0mq_muster(heads, many_decks, places, room, bytes, length, numbers, many) }
}

/// Musters the messages of a recording, from an empty ledger and an empty book.
pub fn reckon(recording: &[u8], answer: &mut [u64]) -> u32 {
    let (numbers, many) = (answer.as_mut_ptr(), answer.len());
    // SAFETY: as in `take`.
    unsafe { sim0mq_reckon(recording.as_ptr(), recording.len(), numbers, many) }
}
