use super::super::senders::{close, empty, take, Entry};
use super::super::Refusal;
use super::{sent, text, S};

/// A message of this encoded sender with this number.
fn from(sender: &[u8], number: i64) -> Vec<u8> {
    sent(sender, &[1, 0, 0], number, 1, &[])
}

#[test]
fn the_example() {
    let mut book = empty();
    assert_eq!(take(&mut book, &S), Ok(0));
    let mut entry = Entry { held: true, code: 9, size: 4, number: 124, ..Entry::default() };
    entry.id[..4].copy_from_slice(b"MC.1");
    assert_eq!(book[0], entry);
    assert_eq!(book[1..], empty()[1..]);
    let before = book;
    assert_eq!(take(&mut book, &S), Err(Refusal::new(27, 54)));
    assert_eq!(take(&mut book, &S[..76]), Err(Refusal::new(1, 76)));
    assert_eq!(book, before);
    assert!(!close(&mut book, 10, b"MC.1"));
    assert!(!close(&mut book, 9, b"MC.2"));
    assert!(!close(&mut book, 9, &[0; 300]));
    assert_eq!(book, before);
    assert!(close(&mut book, 9, b"MC.1"));
    assert_eq!(book, empty());
    assert_eq!(take(&mut book, &S), Ok(0));
}

#[test]
fn numbers_with_a_sign() {
    let mut book = empty();
    let sender = text(b"a");
    for number in [i64::MIN, -5, -1, 0, 7, i64::MAX] {
        assert_eq!(take(&mut book, &from(&sender, number)), Ok(0));
        for less in [number, number.saturating_sub(1), i64::MIN] {
            let place = 10 + 3 + sender.len() as u64 + 3 + 3;
            let refusal = Refusal { number: 27, place };
            assert_eq!(take(&mut book, &from(&sender, less)), Err(refusal));
        }
    }
}

#[test]
fn same_senders() {
    let mut book = empty();
    let ids: [&[u8]; 8] = [
        &text(b""),
        &[10, 0, 0, 0, 0],
        &text(b"ab"),
        &[10, 0, 0, 0, 1, b'a', b'b'],
        &[1, b'a', b'b'],
        &[2, 0, 0, b'a', b'b'],
        &text(b"ab\0"),
        &text(&[b'x'; 32]),
    ];
    for (place, id) in ids.into_iter().enumerate() {
        assert_eq!(take(&mut book, &from(id, 1)), Ok(place as u64));
    }
    for (place, id) in ids.into_iter().enumerate() {
        assert_eq!(take(&mut book, &from(id, 2)), Ok(place as u64));
    }
    assert_eq!(take(&mut book, &from(&text(&[b'x'; 33]), 1)), Err(Refusal::new(26, 13)));
    let wide = [&[10, 0, 0, 0, 17], &[0; 34][..]].concat();
    assert_eq!(take(&mut book, &from(&wide, 1)), Err(Refusal::new(26, 13)));
    let wide = [&[10, 0, 0, 0, 16], &[0; 32][..]].concat();
    assert_eq!(take(&mut book, &from(&wide, 1)), Ok(8));
}

#[test]
fn a_full_book() {
    let mut book = empty();
    for sender in 0..32 {
        assert_eq!(take(&mut book, &from(&[1, 0, sender], 5)), Ok(sender.into()));
    }
    let full = book;
    assert_eq!(take(&mut book, &from(&[1, 0, 32], 5)), Err(Refusal::new(28, 13)));
    assert_eq!(take(&mut book, &from(&text(&[0; 33]), 5)), Err(Refusal::new(26, 13)));
    assert_eq!(take(&mut book, &from(&[1, 0, 9], 5)), Err(Refusal::new(27, 22)));
    assert_eq!(book, full);
    assert_eq!(take(&mut book, &from(&[1, 0, 9], 6)), Ok(9));
    assert!(close(&mut book, 1, &[0, 20]));
    assert!(close(&mut book, 1, &[0, 4]));
    assert_eq!(take(&mut book, &from(&[1, 0, 32], -9)), Ok(4));
    assert_eq!(take(&mut book, &from(&[1, 0, 4], -9)), Ok(20));
}

#[test]
fn forged_books() {
    let mut book = empty();
    // A size that no id has holds its place and is never found.
    book[0] = Entry { held: true, code: 9, size: 33, ..Entry::default() };
    book[1] = Entry { code: 9, size: 1, id: [b'a'; 32], number: 9, ..Entry::default() };
    for place in [2, 3] {
        book[place] = Entry { held: true, number: 2 * place as i64, ..book[1] };
    }
    let sender = text(b"a");
    assert_eq!(take(&mut book, &from(&sender, 4)), Err(Refusal::new(27, 25)));
    assert_eq!(take(&mut book, &from(&sender, 5)), Ok(2));
    // The place is written whole, with zeros after the id.
    let mut id = [0; 32];
    id[0] = b'a';
    assert_eq!(book[2], Entry { number: 5, id, ..book[3] });
    assert_eq!(take(&mut book, &from(&text(&[0; 33]), 1)), Err(Refusal::new(26, 13)));
    assert!(!close(&mut book, 9, &[0; 33]));
    assert!(close(&mut book, 9, b"a"));
    assert_eq!((book[2], book[3].number), (Entry::default(), 6));
    assert_eq!(take(&mut book, &from(&sender, 6)), Err(Refusal::new(27, 25)));
    assert_eq!(take(&mut book, &from(&[1, 7, 7], 0)), Ok(1));
    assert_eq!(book[1].id[..3], [7, 7, 0]);
}
