//! Reading and judging.

use sim0mq::{judge, read, Field, MOST_BYTES, MOST_FIELDS};

use crate::{carrying, told, with, S};

/// What reading refuses; judging has to refuse the same.
fn refused(message: &[u8]) -> (u8, usize) {
    let refusal = read(message).unwrap_err();
    assert_eq!(judge(message).unwrap_err(), refusal);
    told(refusal)
}

/// The row of a field.
fn row(field: Field) -> [usize; 6] {
    let (code, values) = (field.code().into(), field.values());
    [code, field.place(), field.first(), field.len(), field.marks(), values]
}

/// The largest count.
const LARGEST: [u8; 4] = i32::MAX.to_be_bytes();

#[test]
fn the_sample_is_accepted_with_its_table() {
    let message = read(S).unwrap();
    assert_eq!((message.length(), message.steps(), message.fields().len()), (77, 9, 1));
    assert_eq!(message.bytes(), S);
    let frames = message.frames().map(|frame| (frame.place(), frame.code()));
    let places = [(0, 9), (10, 9), (24, 9), (33, 9), (43, 9), (54, 3), (63, 0), (65, 1)];
    assert_eq!(frames, places);
    let field = message.field(0).unwrap();
    assert_eq!((field.k(), row(field)), (0, [5, 68, 69, 8, 0, 1]));
    assert_eq!((field.bytes(), field.encoded()), (&S[69..], &S[68..]));
    assert!(message.field(1).is_none());
}

#[test]
fn judging_answers_as_reading_does() {
    let summary = judge(S).unwrap();
    assert_eq!((summary.length(), summary.fields(), summary.steps()), (77, 1, 9));
    assert_eq!(&summary, read(S).unwrap().summary());
}

#[test]
fn the_header_is_told() {
    let message = read(S).unwrap();
    assert_eq!((message.number(), message.status(), message.count_type()), (124, 2, 1));
    assert_eq!(message.ids(), &S[10..54]);
    let ids = [message.run(), message.sender(), message.receiver(), message.message_type()];
    let texts: [&[u8]; 4] = [b"IDVV.14.2", b"MC.1", b"MM1.4", b"DSOL.3"];
    assert_eq!(ids.map(|id| id.bytes()), texts);
    assert_eq!(ids.map(|id| id.encoded()).concat(), message.ids());
    assert_eq!(ids.map(|id| (id.place(), id.code())), [(10, 9), (24, 9), (33, 9), (43, 9)]);
    assert_eq!(ids.map(|id| id.number()), [None; 4]);
}

#[test]
fn ids_may_be_numbers_wide_strings_and_empty() {
    let ids = b"\x01\xFF\xFE\x02\x80\0\0\0\x0A\0\0\0\x02\0h\0i\x09\0\0\0\0";
    let message = [&S[..10], ids, &S[54..]].concat();
    let message = read(&message).unwrap();
    assert_eq!(message.ids(), ids);
    assert_eq!(message.run().number(), Some(-2));
    assert_eq!(message.sender().number(), Some(i32::MIN));
    assert_eq!((message.receiver().number(), message.receiver().bytes()), (None, &b"\0h\0i"[..]));
    assert_eq!((message.message_type().number(), message.message_type().bytes()), (None, &[][..]));
}

#[test]
fn the_message_number_is_signed() {
    let low = with(&[(55, 0x80), (62, 0)]);
    assert_eq!(read(&low).unwrap().number(), i64::MIN);
    let minus: Vec<_> = (55..63).map(|place| (place, 0xFF)).collect();
    assert_eq!(read(&with(&minus)).unwrap().number(), -1);
}

#[test]
fn damaged_samples_are_refused_at_their_places() {
    assert_eq!(refused(&[]), (1, 0));
    assert_eq!(refused(&S[..76]), (1, 76));
    assert_eq!(refused(&[&S[..], &[0]].concat()), (13, 77));
    assert_eq!(refused(&with(&[(9, b'2')])), (3, 8));
    assert_eq!(refused(&with(&[(64, 4)])), (6, 64));
    assert_eq!(refused(&with(&[(67, 0)])), (13, 68));
    assert_eq!(refused(&with(&[(66, 1), (67, 0)])), (1, 77));
    assert_eq!(refused(&with(&[(66, 1), (67, 1)])), (7, 66));
    assert_eq!(refused(&with(&[(66, 0x80)])), (5, 66));
    assert_eq!(refused(&with(&[(68, 33)])), (9, 68));
}

#[test]
fn damaged_payloads_are_refused_at_their_places() {
    assert_eq!(refused(&carrying(1, &[6, 2])), (10, 69));
    assert_eq!(refused(&carrying(1, &[25, 16, 22, 0, 0, 0, 0])), (12, 70));
    assert_eq!(refused(&carrying(1, &[25, 29, 0, 0, 0, 0, 0])), (11, 69));
    assert_eq!(refused(&carrying(1, &[&[23], &LARGEST[..], &LARGEST].concat())), (1, 77));
}

#[test]
fn a_matrix_of_no_rows_has_no_values() {
    let message = carrying(1, &[&[24, 0, 0, 0, 0], &LARGEST[..]].concat());
    let message = read(&message).unwrap();
    let field = message.field(0).unwrap();
    assert_eq!(row(field), [24, 68, 77, 0, 0, 0]);
    assert!(field.is_empty());
    assert_eq!(field.bytes(), []);
}

#[test]
fn money_has_a_mark_of_four_bytes() {
    let message = carrying(1, b"\x1A\x65\x03\xD2\x15\x40\xA3\x88\0\0\0\0\0");
    let message = read(&message).unwrap();
    assert_eq!(message.steps(), 10);
    assert_eq!(row(message.field(0).unwrap()), [26, 68, 73, 8, 1, 1]);
}

/// A message of this many fields, each a byte or a string of one character in turn.
fn of_fields(count: u16) -> Vec<u8> {
    let payload = (0..count).flat_map(|k| match k % 2 {
        0 => vec![0, k as u8],
        _ => vec![9, 0, 0, 0, 1, k as u8],
    });
    carrying(count, &payload.collect::<Vec<_>>())
}

#[test]
fn every_field_has_its_row_whatever_their_number() {
    for count in [0, 1, 7, 8, 9, 255, 256] {
        let bytes = of_fields(count);
        let message = read(&bytes).unwrap();
        assert_eq!(message.fields().len(), usize::from(count));
        let mut place = 68;
        for (k, field) in message.fields().enumerate() {
            let (code, head) = if k % 2 == 0 { (0, 1) } else { (9, 5) };
            let expected = [code, place, place + head, 1, 0, 1];
            assert_eq!((field.k(), row(field)), (k, expected));
            assert_eq!(field.bytes(), [k as u8]);
            place += field.encoded().len();
        }
        assert_eq!(place, message.length());
    }
    assert_eq!(refused(&of_fields(257)), (7, 66));
}

#[test]
fn a_fault_behind_many_fields_is_told_and_no_short_table() {
    let mut bytes = of_fields(MOST_FIELDS as u16);
    bytes.push(0);
    assert_eq!(refused(&bytes), (13, bytes.len() - 1));
}

#[test]
fn fields_come_from_both_ends() {
    let bytes = of_fields(20);
    let message = read(&bytes).unwrap();
    let forth: Vec<_> = message.fields().map(row).collect();
    let mut back: Vec<_> = message.fields().rev().map(row).collect();
    back.reverse();
    assert_eq!(forth, back);
    let mut fields = message.fields();
    assert_eq!(fields.next().unwrap().k(), 0);
    assert_eq!(fields.next_back().unwrap().k(), 19);
    assert_eq!(fields.nth(3).unwrap().k(), 4);
    assert_eq!(fields.len(), 14);
    assert_eq!((&message).into_iter().count(), 20);
    assert_eq!(message.clone().field(11).map(row), Some(forth[11]));
}

#[test]
fn parts_of_the_message_outlive_its_table() {
    let bytes = of_fields(12);
    let field = read(&bytes).unwrap().field(11).unwrap();
    assert_eq!(field.bytes(), [11]);
    assert_eq!(read(&bytes).unwrap().sender().bytes(), b"MC.1");
}

#[test]
fn the_longest_message_is_read_and_a_longer_one_refused() {
    let text = vec![b'a'; MOST_BYTES - 73];
    let count = (text.len() as u32).to_be_bytes();
    let mut bytes = carrying(1, &[&[9], &count[..], &text].concat());
    assert_eq!(bytes.len(), MOST_BYTES);
    assert_eq!(
        row(read(&bytes).unwrap().field(0).unwrap()),
        [9, 68, 73, MOST_BYTES - 73, 0, MOST_BYTES - 73]
    );
    bytes.push(0);
    assert_eq!(refused(&bytes), (8, 0));
}

#[test]
fn messages_may_go_to_other_threads() {
    let message = read(S).unwrap();
    let steps = std::thread::scope(|scope| scope.spawn(|| message.steps()).join().unwrap());
    assert_eq!(steps, 9);
}
