//! The deck ledger.

use sim0mq::{raw, reckon, Ledger, DECKS};

use crate::{of_type, recorded, told, with, S, SHORT};

/// A head joins a deck; a head joins one deck and leaves another; a head leaves a deck.
const NEW: u8 = 1;
const CHANGE: u8 = 2;
const DELETE: u8 = 3;

/// The muster of this number, status and decks.
fn muster(number: i64, status: u8, decks: &[u8]) -> Vec<u8> {
    let fields: Vec<_> = decks.iter().map(|&deck| [0, deck]).collect();
    let fields: Vec<&[u8]> = fields.iter().map(|field| &field[..]).collect();
    of_type("MUS.1", number, status, &fields)
}

/// The ledger of these musters, numbered from 1, all of which are applied.
fn after(musters: &[(u8, &[u8])]) -> Ledger {
    let mut ledger = Ledger::new();
    for (number, (status, decks)) in (1..).zip(musters) {
        assert_eq!(ledger.muster(&muster(number, *status, decks)), Ok(0));
    }
    ledger
}

#[test]
fn heads_come_move_and_leave() {
    let ledger = after(&[(NEW, &[7]), (NEW, &[7]), (NEW, &[3]), (CHANGE, &[7, 3]), (DELETE, &[7])]);
    let heads = [3, 7, 15, 16, usize::MAX].map(|deck| ledger.heads(deck));
    assert_eq!(heads, [Some(0), Some(2), Some(0), None, None]);
    let mut decks = [0; DECKS];
    decks[7] = 2;
    assert_eq!(ledger.decks(), decks);
    assert_eq!(ledger.senders().len(), 1);
    assert!(Ledger::default() == Ledger::new());
    let itself = after(&[(NEW, &[15]), (CHANGE, &[15, 15])]);
    assert_eq!(itself.heads(15), Some(1));
}

#[test]
fn a_refused_message_leaves_ledger_and_book() {
    // The type frame is at 25, the number frame at 35, the first field at 48.
    let held = after(&[(NEW, &[7])]);
    let faults = [
        (with(&[(64, 4)]), (6, 64)),
        (S.to_vec(), (20, 43)),
        (of_type("MUS.2", 2, NEW, &[&[0, 7]]), (20, 25)),
        (muster(2, CHANGE, &[7]), (21, 25)),
        (of_type("MUS.1", 2, CHANGE, &[&[0, 7], &[6, 1]]), (22, 50)),
        (muster(2, NEW, &[16]), (29, 48)),
        (muster(2, CHANGE, &[7, 0xFF]), (29, 50)),
        (muster(2, DELETE, &[6]), (30, 48)),
        (muster(2, CHANGE, &[7, 6]), (30, 50)),
        (muster(1, NEW, &[3]), (27, 35)),
        (muster(-1, DELETE, &[7]), (27, 35)),
    ];
    for (message, refusal) in faults {
        let mut ledger = held.clone();
        assert_eq!(told(ledger.muster(&message).unwrap_err()), refusal);
        assert!(ledger == held);
    }
}

#[test]
fn a_deck_holds_65535_heads() {
    let mut ledger = Ledger::new();
    for number in 1..=65_535 {
        ledger.muster(&muster(number, NEW, &[0])).unwrap();
    }
    let full = ledger.clone();
    assert_eq!(told(ledger.muster(&muster(65_536, NEW, &[0])).unwrap_err()), (31, 48));
    assert!(ledger == full);
    assert_eq!(ledger.muster(&muster(65_536, CHANGE, &[0, 0])), Ok(0));
    assert_eq!(ledger.muster(&muster(65_537, CHANGE, &[1, 0])), Ok(0));
    assert_eq!((ledger.heads(0), ledger.heads(1)), (Some(65_534), Some(1)));
}

/// Checks that a recording is reckoned as the library's one call does it.
fn as_one_call(recording: &[u8]) {
    let mut answer = [0; raw::RECKON_NUMBERS];
    let number = raw::reckon(recording, &mut answer);
    match reckon(recording) {
        Err(refusal) => {
            assert_eq!((u32::from(refusal.number()), refusal.place() as u64), (number, answer[1]));
        }
        Ok(reckoned) => {
            assert_eq!(number, 0);
            let counts = [reckoned.applied() as u64, reckoned.refused() as u64];
            assert_eq!(counts, answer[2..4]);
            assert_eq!(reckoned.ledger().decks().map(u64::from), answer[4..]);
        }
    }
}

#[test]
fn a_recording_is_reckoned() {
    let [one, two] = [muster(1, NEW, &[7]), muster(2, CHANGE, &[3, 7])];
    let last = muster(3, NEW, &[7]);
    let bytes = recorded(&[S, &one, &one, &two, SHORT, &two, &last]);
    let reckoned = reckon(&bytes).unwrap();
    assert_eq!((reckoned.applied(), reckoned.refused()), (3, 4));
    let mut ledger = reckoned.ledger().clone();
    assert_eq!((ledger.heads(7), ledger.heads(3)), (Some(1), Some(1)));
    // The book is that of the messages applied.
    assert_eq!(told(ledger.muster(&last).unwrap_err()), (27, 35));
    assert_eq!(ledger.muster(&muster(4, DELETE, &[7])), Ok(0));
    for cut in [0, 9, bytes.len() - 1] {
        assert_eq!(told(reckon(&bytes[..cut]).unwrap_err()), (18, 0));
        as_one_call(&bytes[..cut]);
    }
    as_one_call(&bytes);
    as_one_call(&recorded(&[]));
    let mut damaged = bytes;
    damaged[77 + 9] = b'2';
    assert_eq!(told(reckon(&damaged).unwrap_err()), (3, 85));
    as_one_call(&damaged);
}

#[test]
fn the_raw_calls_judge_what_is_lent() {
    let message = muster(1, NEW, &[7]);
    let (mut decks, mut book, mut answer) = ([5; DECKS + 2], [0; raw::BOOK_NUMBERS + 2], [9; 4]);
    book[raw::BOOK_NUMBERS..].fill(5);
    for (heads, places) in [(DECKS - 1, raw::BOOK_NUMBERS), (DECKS, raw::BOOK_NUMBERS - 1)] {
        let (decks, book) = (&mut decks[..heads], &mut book[..places]);
        assert_eq!((raw::muster(decks, book, &message, &mut answer), answer), (14, [14, 0, 0, 9]));
    }
    let short = &mut book[..raw::BOOK_NUMBERS - 1];
    assert_eq!(raw::take(short, &message, &mut answer), 14);
    assert_eq!(raw::close_sender(short, 9, b"GATE", &mut answer), 14);
    assert_eq!(raw::muster(&mut decks, &mut book, &message, &mut answer[..2]), raw::TOO_SHORT);
    assert_eq!((decks, answer), ([5; DECKS + 2], [14, 0, 0, 9]));
    assert!(book[..raw::BOOK_NUMBERS].iter().all(|&number| number == 0));
    assert_eq!(raw::muster(&mut decks, &mut book, &message, &mut answer), 0);
    assert_eq!(
        (decks[7], &decks[DECKS..], &book[raw::BOOK_NUMBERS..]),
        (6, &[5; 2][..], &[5; 2][..])
    );
    let held = [1, 1, 9, 4, 0x4741_5445 << 32, 0, 0, 0];
    assert_eq!(book[..8], held);
    assert_eq!(answer, [0, 0, 0, 9]);
}
