use super::super::ledger::{muster, reckon, Ledger, Reckoned};
use super::super::senders::{empty, Book};
use super::super::Refusal;
use super::{sent, text, S};

const NEW: u8 = 1;
const CHANGE: u8 = 2;
const DELETE: u8 = 3;
/// The places of the type frame and of the first two fields in a muster of here.
const TYPE: usize = 22;
const FIRST: usize = TYPE + 10 + 9 + 2 + 3;
const SECOND: usize = FIRST + 2;

/// A muster of sender a with these decks.
fn mustered(number: i64, status: u8, decks: &[u8]) -> Vec<u8> {
    let fields: Vec<[u8; 2]> = decks.iter().map(|&deck| [0, deck]).collect();
    let fields: Vec<&[u8]> = fields.iter().map(|field| &field[..]).collect();
    sent(&text(b"a"), &text(b"MUS.1"), number, status, &fields)
}

/// Checks a refusal, and that ledger and book stay.
#[track_caller]
fn refused(ledger: Ledger, book: Book, message: &[u8], number: u32, place: usize) {
    let (mut heads, mut senders) = (ledger, book);
    let said = muster(&mut heads, &mut senders, message);
    assert_eq!(said, Err(Refusal::new(number, place)));
    assert_eq!((heads, senders), (ledger, book));
}

#[test]
fn new_change_delete() {
    let (mut ledger, mut book) = ([0; 16], empty());
    let deeds: [(u8, &[u8]); 6] = [
        (NEW, &[7]),
        (NEW, &[15]),
        (CHANGE, &[0, 7]),
        (CHANGE, &[15, 15]),
        (DELETE, &[15]),
        (NEW, &[0]),
    ];
    for (number, (status, decks)) in deeds.into_iter().enumerate() {
        let message = mustered(number as i64, status, decks);
        assert_eq!(muster(&mut ledger, &mut book, &message), Ok(0));
    }
    let mut expected = [0; 16];
    expected[0] = 2;
    assert_eq!((ledger, book[0].number), (expected, 5));
}

#[test]
fn refusals_and_places() {
    let (mut ledger, book) = ([1; 16], empty());
    let byte: &[u8] = &[0, 3];
    let to =
        |type_id: &[u8], status, fields: &[&[u8]]| sent(&text(b"a"), type_id, 1, status, fields);
    refused(ledger, book, &S, 20, 43);
    refused(ledger, book, &to(&[1, 0, 0], NEW, &[byte]), 20, TYPE);
    refused(ledger, book, &to(&text(b"MUS.2"), NEW, &[]), 20, TYPE);
    refused(ledger, book, &to(b"\x0a\0\0\0\x05\0M\0U\0S\0.\x001", NEW, &[byte]), 20, TYPE);
    for (status, decks) in [(NEW, 2), (NEW, 0), (CHANGE, 1), (CHANGE, 3), (DELETE, 2), (DELETE, 0)]
    {
        refused(ledger, book, &mustered(1, status, &vec![99; decks]), 21, TYPE);
    }
    let muster = text(b"MUS.1");
    refused(ledger, book, &to(&muster, NEW, &[&[6, 1]]), 22, FIRST);
    refused(ledger, book, &to(&muster, CHANGE, &[&[0, 99], &[7, 3]]), 22, SECOND);
    refused(ledger, book, &to(&muster, CHANGE, &[&[1, 0, 3], &[7, 3]]), 22, FIRST);
    for deck in [16, 127, 128, 255] {
        refused(ledger, book, &mustered(1, NEW, &[deck]), 29, FIRST);
        refused(ledger, book, &mustered(1, DELETE, &[deck]), 29, FIRST);
        refused(ledger, book, &mustered(1, CHANGE, &[3, deck]), 29, SECOND);
        refused(ledger, book, &mustered(1, CHANGE, &[deck, deck]), 29, FIRST);
    }
    (ledger[3], ledger[4]) = (0, u16::MAX);
    refused(ledger, book, &mustered(1, DELETE, &[3]), 30, FIRST);
    refused(ledger, book, &mustered(1, CHANGE, &[4, 3]), 30, SECOND);
    refused(ledger, book, &mustered(1, CHANGE, &[3, 3]), 30, SECOND);
    refused(ledger, book, &mustered(1, NEW, &[4]), 31, FIRST);
    refused(ledger, book, &mustered(1, CHANGE, &[4, 5]), 31, FIRST);
}

#[test]
fn before_the_book() {
    let (mut ledger, mut book) = ([0; 16], empty());
    assert_eq!(muster(&mut ledger, &mut book, &mustered(5, NEW, &[2])), Ok(0));
    refused(ledger, book, &mustered(5, DELETE, &[3]), 30, FIRST);
    refused(ledger, book, &mustered(5, DELETE, &[2]), 27, TYPE + 10);
    let long = sent(&text(&[0; 33]), &text(b"MUS.1"), 1, NEW, &[&[0, 2]]);
    refused(ledger, book, &long, 26, 13);
    for entry in &mut book {
        entry.held = true;
    }
    let other = sent(&[1, 5, 5], &text(b"MUS.1"), 1, NEW, &[&[0, 2]]);
    refused(ledger, book, &other, 28, 13);
    ledger[4] = u16::MAX;
    assert_eq!(muster(&mut ledger, &mut book, &mustered(6, CHANGE, &[4, 4])), Ok(0));
    assert_eq!((ledger[4], book[0].number), (u16::MAX, 6));
}

#[test]
fn a_whole_recording() {
    let messages = [
        mustered(1, NEW, &[7]),
        mustered(1, NEW, &[7]),
        mustered(2, CHANGE, &[8, 7]),
        S.to_vec(),
        mustered(3, NEW, &[7]),
    ];
    let mut bytes = messages.concat();
    let (place, mut start) = (bytes.len() as u32, 0u32);
    for message in &messages {
        bytes.extend(start.to_be_bytes());
        bytes.extend((message.len() as u32).to_be_bytes());
        start += message.len() as u32;
    }
    bytes.extend(place.to_be_bytes());
    bytes.extend([0, 0, 0, 5, 0, 2]);
    let mut ledger = [0; 16];
    (ledger[7], ledger[8]) = (1, 1);
    assert_eq!(reckon(&bytes), Ok(Reckoned { ledger, applied: 3, refused: 2 }));
    assert_eq!(reckon(&bytes[1..]), Err(Refusal::new(18, 0)));
    bytes[5] = b'X';
    assert_eq!(reckon(&bytes), Err(Refusal::new(2, 5)));
}
