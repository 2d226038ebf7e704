//! Senders: a book of the last message number taken from each.

use super::header::{number, Header};
use super::{accepted, Refusal};

/// The senders that a book has places for.
pub const MOST_SENDERS: usize = 32;
/// The most value bytes of a sender's id.
pub const MOST_ID: usize = 32;

/// A place in the book; any content may be handed in.
#[derive(Clone, Copy, Debug, Default, PartialEq, Eq)]
pub struct Entry {
    /// Whether a sender is held here.
    pub held: bool,
    /// The type code of its id.
    pub code: u8,
    /// The number of the id's value bytes.
    pub size: u8,
    /// The value bytes, then zeros.
    pub id: [u8; MOST_ID],
    /// The last message number taken.
    pub number: i64,
}

/// The book.
pub type Book = [Entry; MOST_SENDERS];

/// The book of no sender.
#[must_use]
pub fn empty() -> Book {
    [Entry::default(); MOST_SENDERS]
}

/// Takes a message and answers its sender's place in the book.
#[must_use = "a message that is not taken must not be applied"]
pub fn take(book: &mut Book, message: &[u8]) -> Result<u64, Refusal> {
    take_accepted(book, message, &accepted(message)?)
}

/// Takes a message that reading accepts.
pub(super) fn take_accepted(
    book: &mut Book,
    message: &[u8],
    header: &Header,
) -> Result<u64, Refusal> {
    let (sender, counted) = (header.frames[2].0 as usize, header.frames[5].0 as usize);
    let (code, id) = header.id(message, 2);
    if id.len() > MOST_ID {
        return Err(Refusal::new(26, sender));
    }
    let number = i64::from_be_bytes(number(message, counted + 1)?);
    let place = match find(book, code, id) {
        Some(place) if number <= book[place].number => return Err(Refusal::new(27, counted)),
        Some(place) => place,
        None => book.iter().position(|entry| !entry.held).ok_or(Refusal::new(28, sender))?,
    };
    let mut entry = Entry { held: true, code, size: id.len() as u8, number, ..Entry::default() };
    entry.id[..id.len()].copy_from_slice(id);
    book[place] = entry;
    Ok(place as u64)
}

/// Removes a sender and answers whether it was held.
#[must_use = "whether it was held is the answer"]
pub fn close(book: &mut Book, code: u8, id: &[u8]) -> bool {
    let found = find(book, code, id);
    if let Some(place) = found {
        book[place] = Entry::default();
    }
    found.is_some()
}

/// The first place that holds this sender.
fn find(book: &[Entry], code: u8, id: &[u8]) -> Option<usize> {
    book.iter().position(|entry| {
        let held = entry.id.get(..entry.size.into());
        entry.held && entry.code == code && held == Some(id)
    })
}
