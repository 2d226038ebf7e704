//! The deck ledger: heads by deck, from muster messages.

use super::header::Header;
use super::recordings;
use super::senders::{self, Book};
use super::{accepted, fields, Refusal};

/// The decks of a ship.
pub const DECKS: usize = 16;
/// The type id of a muster message.
const MUSTER: &[u8] = b"MUS.1";

/// The heads on each deck; a deck holds no more than its number can say.
pub type Ledger = [u16; DECKS];

/// What a whole recording comes to.
#[derive(Clone, Copy, Debug, PartialEq, Eq)]
pub struct Reckoned {
    /// The heads on each deck.
    pub ledger: Ledger,
    /// Messages applied.
    pub applied: u64,
    /// Messages refused and passed over.
    pub refused: u64,
}

/// The decks of a muster, each with the place of its field.
struct Deed {
    joined: Option<(usize, usize)>,
    left: Option<(usize, usize)>,
}

/// Applies a muster message and answers its sender's place in the book.
#[must_use = "a refused message is not applied"]
pub fn muster(ledger: &mut Ledger, book: &mut Book, message: &[u8]) -> Result<u64, Refusal> {
    let header = accepted(message)?;
    let Deed { joined, left } = deed(message, &header)?;
    let deck = |of: Option<(usize, usize)>| of.map(|(_, deck)| deck);
    if let Some((place, _)) = left.filter(|&(_, deck)| ledger[deck] == 0) {
        return Err(Refusal::new(30, place));
    }
    let itself = deck(joined) == deck(left);
    if let Some((place, _)) = joined.filter(|&(_, deck)| !itself && ledger[deck] == u16::MAX) {
        return Err(Refusal::new(31, place));
    }
    let taken = senders::take_accepted(book, message, &header)?;
    if let (Some(deck), false) = (deck(left), itself) {
        ledger[deck] -= 1;
    }
    if let (Some(deck), false) = (deck(joined), itself) {
        ledger[deck] += 1;
    }
    Ok(taken)
}

/// Musters each message of a recording, from an empty ledger and book.
#[must_use = "the ledger is the answer"]
pub fn reckon(recording: &[u8]) -> Result<Reckoned, Refusal> {
    let index = recordings::judged(recording, |_| Ok(()))?;
    let mut reckoned = Reckoned { ledger: [0; DECKS], applied: 0, refused: 0 };
    let mut book = senders::empty();
    for span in index.spans() {
        let message = recordings::message(recording, span);
        match muster(&mut reckoned.ledger, &mut book, message) {
            Ok(_) => reckoned.applied += 1,
            Err(_) => reckoned.refused += 1,
        }
    }
    Ok(reckoned)
}

/// What an accepted message says to do, whatever the ledger holds.
fn deed(message: &[u8], header: &Header) -> Result<Deed, Refusal> {
    let place = header.frames[4].0 as usize;
    if header.id(message, 4) != (9, MUSTER) {
        return Err(Refusal::new(20, place));
    }
    let status = header.status(message);
    if header.fields != if status == 2 { 2 } else { 1 } {
        return Err(Refusal::new(21, place));
    }
    if let Some(field) = fields(message, header).find(|field| field.code != 0) {
        return Err(Refusal::new(22, field.place));
    }
    let mut decks = [None; 2];
    for (deck, field) in decks.iter_mut().zip(fields(message, header)) {
        let number = usize::from(message[field.first]);
        if number >= DECKS {
            return Err(Refusal::new(29, field.place));
        }
        *deck = Some((field.place, number));
    }
    let [first, second] = decks;
    Ok(match status {
        3 => Deed { joined: None, left: first },
        _ => Deed { joined: first, left: second },
    })
}
