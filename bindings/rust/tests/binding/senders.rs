//! The book of senders.

use sim0mq::Senders;

use crate::{of_type, told, with, S};

/// A message of this number from the sender with this encoded id: its sender frame is at 13.
fn from(sender: &[u8], number: i64) -> Vec<u8> {
    let message = of_type("MUS.1", number, 1, &[]);
    [&message[..13], sender, &message[22..]].concat()
}

/// The encoded id of this text.
fn text(id: &[u8]) -> Vec<u8> {
    [&[9], &(id.len() as u32).to_be_bytes()[..], id].concat()
}

#[test]
fn a_message_that_comes_again_is_refused() {
    let mut senders = Senders::default();
    assert!(senders.is_empty());
    assert_eq!(senders.take(S), Ok(0));
    for repeated in [&S[..], &with(&[(62, 0x7B)]), &with(&[(55, 0x80)])] {
        let before = senders.clone();
        assert_eq!(told(senders.take(repeated).unwrap_err()), (27, 54));
        assert!(senders == before);
    }
    assert_eq!(senders.take(&with(&[(62, 0x7D)])), Ok(0));
    assert_eq!(senders.len(), 1);
}

#[test]
fn numbers_are_signed_and_each_sender_has_its_own() {
    let mut senders = Senders::new();
    for number in [i64::MIN, -1, 0, i64::MAX] {
        assert_eq!(senders.take(&from(&text(b"GATE"), number)), Ok(0));
        assert_eq!(senders.take(&from(&text(b"PIER"), number)), Ok(1));
        assert_eq!(senders.take(&from(&[1, 0, 7], number)), Ok(2));
        assert_eq!(senders.take(&from(b"\x09\0\0\0\x02\0\x07", number)), Ok(3));
        assert_eq!(senders.take(&from(&[9, 0, 0, 0, 0], number)), Ok(4));
    }
    assert_eq!(senders.len(), 5);
}

#[test]
fn a_closed_sender_is_a_new_one() {
    let mut senders = Senders::new();
    for (place, sender) in [b"GATE", b"PIER"].into_iter().enumerate() {
        assert_eq!(senders.take(&from(&text(sender), 9)), Ok(place));
    }
    let before = senders.clone();
    for (code, id) in [(10, &b"GATE"[..]), (9, b"GAT"), (9, b"GATE\0"), (9, &[7; 40]), (9, b"")] {
        assert_eq!(senders.close(code, id), Ok(0));
        assert!(senders == before);
    }
    assert_eq!(senders.close(9, b"GATE"), Ok(1));
    assert_eq!((senders.close(9, b"GATE"), senders.len()), (Ok(0), 1));
    assert_eq!(senders.take(&from(&text(b"BOAT"), 1)), Ok(0));
    assert_eq!(senders.take(&from(&text(b"GATE"), 1)), Ok(2));
    assert_eq!(told(senders.take(&from(&text(b"PIER"), 9)).unwrap_err()), (27, 35));
}

#[test]
fn a_book_has_32_places_for_ids_of_32_bytes() {
    let mut senders = Senders::new();
    for place in 0..32 {
        assert_eq!(senders.take(&from(&text(&[place; 32]), 1)), Ok(usize::from(place)));
    }
    assert_eq!(told(senders.take(&from(&text(b"GATE"), 1)).unwrap_err()), (28, 13));
    assert_eq!(told(senders.take(&from(&text(&[0; 33]), 1)).unwrap_err()), (26, 13));
    assert_eq!(senders.take(&from(&text(&[31; 32]), 2)), Ok(31));
    assert_eq!((senders.len(), senders.close(9, &[17; 32])), (32, Ok(1)));
    assert_eq!(senders.take(&from(&text(b"GATE"), 1)), Ok(17));
}

#[test]
fn what_reading_refuses_is_not_taken() {
    let mut senders = Senders::new();
    assert_eq!(told(senders.take(&with(&[(64, 4)])).unwrap_err()), (6, 64));
    assert_eq!(told(senders.take(&S[..76]).unwrap_err()), (1, 76));
    assert!(senders == Senders::new());
}
