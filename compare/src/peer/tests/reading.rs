use super::super::{blank, read, Refusal};
use super::{changed, judged, refused, table_of, with_fields, with_payload, PAYLOAD, S};

const MOST: [u8; 4] = [0x7F, 0xFF, 0xFF, 0xFF];

#[test]
fn the_example_is_accepted() {
    let reading = judged(&S).expect("accepted");
    assert_eq!((reading.length, reading.fields, reading.steps), (77, 1, 9));
    let frames = [(0, 9), (10, 9), (24, 9), (33, 9), (43, 9), (54, 3), (63, 0), (65, 1)];
    assert_eq!(reading.frames, frames);
    assert_eq!(table_of(&S), [[5, 68, 69, 8, 0, 1]]);
}

#[test]
fn lengths_and_ends() {
    refused(&[], 1, 0);
    refused(&S[..76], 1, 76);
    refused(&[&S[..], &[0]].concat(), 13, 77);
    for length in 0..77 {
        refused(&S[..length], 1, length as u64);
    }
}

#[test]
fn frame_0() {
    refused(&changed(9, b'2'), 3, 8);
    refused(&changed(8, b'1'), 3, 8);
    refused(&changed(8, b'/'), 2, 8);
    refused(&changed(9, b':'), 2, 9);
    for place in 0..8 {
        refused(&changed(place, 1), 2, place as u64);
    }
    refused(b"\x09\0\0\0\x05SMQ01", 2, 6);
    // The first wrong byte is met before the end, the end before a later one.
    refused(b"\x09\0\0\0\x05SI", 1, 7);
    refused(b"\x09\0\0\0\x06", 2, 4);
    refused(b"\x09\0\0\0\x05SIM9", 1, 9);
    refused(b"\x09\0\0\0\x05SIM99", 3, 8);
}

#[test]
fn ids() {
    refused(&changed(10, 3), 4, 10);
    refused(&changed(43, 0), 4, 43);
    refused(&changed(24, 11), 4, 24);
    refused(&changed(34, 0x80), 5, 34);
    refused(&changed(11, 0x7F), 1, 77);
    let numbered =
        [&S[..10], b"\x01\x80\0\x02\x80\0\0\0\x0A\0\0\0\0\x09\0\0\0\0", &S[54..]].concat();
    let reading = judged(&numbered).expect("accepted");
    assert_eq!(&reading.frames[1..6], [(10, 1), (13, 2), (18, 10), (23, 9), (28, 3)]);
    let wide = [&S[..10], b"\x0A\0\0\0\x01ab", &S[24..]].concat();
    assert_eq!(judged(&wide).expect("accepted").frames[2], (17, 9));
    let cut = [&S[..10], b"\x0A\0\0\0\x02abc"].concat();
    refused(&cut, 1, 18);
    // The count as a whole comes before its sign.
    refused(&[&S[..10], b"\x09\xFF\0\0"].concat(), 1, 14);
    refused(&[&S[..10], b"\x09\xFF\0\0\0"].concat(), 5, 11);
}

#[test]
fn number_and_status() {
    refused(&changed(54, 2), 4, 54);
    refused(&changed(63, 1), 4, 63);
    refused(&changed(64, 4), 6, 64);
    refused(&changed(64, 0), 6, 64);
    refused(&changed(64, 0xFF), 6, 64);
    assert!(judged(&changed(55, 0x80)).is_ok());
    assert!(judged(&changed(64, 3)).is_ok());
}

#[test]
fn counts_of_fields() {
    refused(&changed(67, 0), 13, 68);
    refused(&with_fields(256, &S[68..]), 1, 77);
    let mut table = [0; 1536];
    let message = with_fields(256, &S[68..]);
    assert_eq!(read(&message, Some(&mut table)), Err(Refusal::new(1, 77)));
    assert_eq!(read(&message, Some(&mut table[..1535])), Err(Refusal::new(14, 0)));
    refused(&with_fields(257, &S[68..]), 7, 66);
    refused(&changed(66, 0x80), 5, 66);
    refused(&changed(65, 3), 4, 65);
    refused(&changed(65, 9), 4, 65);
}

#[test]
fn kinds_of_counts() {
    let byte = |count: u8| [&S[..65], &[0, count], &[0, 0].repeat(count.into())[..]].concat();
    assert_eq!(judged(&byte(127)).expect("accepted").fields, 127);
    refused(&byte(128), 5, 66);
    refused(&byte(255), 5, 66);
    let int = |count: u32| [&S[..65], &[2], &count.to_be_bytes()[..], &[0, 0].repeat(256)].concat();
    assert_eq!(judged(&int(256)).expect("accepted").steps, 264);
    refused(&int(257), 7, 66);
    refused(&int(0x7FFF_FFFF), 7, 66);
    refused(&int(0xFFFF_FFFF), 5, 66);
    refused(&int(0x0001_0000), 7, 66);
    refused(&[&S[..65], &[2, 0x80, 0, 0]].concat(), 1, 69);
}

#[test]
fn codes_of_fields() {
    refused(&changed(68, 33), 9, 68);
    refused(&changed(68, 255), 9, 68);
    refused(&with_payload(&[6, 2]), 10, 69);
    refused(&with_payload(&[6]), 1, 69);
    refused(&with_payload(&[]), 1, 68);
    // All value bytes are present before a Boolean is judged.
    refused(&with_payload(&[17, 0, 0, 0, 3, 0, 2]), 1, 75);
    refused(&with_payload(&[17, 0, 0, 0, 3, 0, 2, 3]), 10, 74);
    refused(&with_payload(&[24, 0, 0, 0, 1, 0, 0, 0, 2, 1, 255]), 10, 78);
    let widths = [1, 2, 4, 8, 4, 8, 1, 1, 2];
    for (code, width) in widths.into_iter().enumerate() {
        let message = with_payload(&[&[code as u8], &vec![1; width][..]].concat());
        assert_eq!(table_of(&message), [[code as u32, 68, 69, width as u32, 0, 1]]);
    }
}

#[test]
fn widths_of_arrays_and_matrices() {
    let arrays = [1, 2, 1, 2, 4, 8, 4, 8, 1];
    for (number, width) in arrays.into_iter().enumerate() {
        let code = 9 + number as u8;
        let message = with_payload(&[&[code, 0, 0, 0, 3][..], &vec![1; 3 * width]].concat());
        assert_eq!(table_of(&message), [[code.into(), 68, 73, 3 * width as u32, 0, 3]]);
        refused(&message[..message.len() - 1], 1, message.len() as u64 - 1);
    }
    for (number, width) in arrays[2..].iter().enumerate() {
        let code = 18 + number as u8;
        let head = [code, 0, 0, 0, 3, 0, 0, 0, 2];
        let message = with_payload(&[&head[..], &vec![1; 6 * width]].concat());
        assert_eq!(table_of(&message), [[code.into(), 68, 77, 6 * *width as u32, 0, 6]]);
    }
}

#[test]
fn counts_in_turn() {
    refused(&with_payload(&[9, 0x80, 0, 0, 0]), 5, 69);
    refused(&with_payload(&[20, 0xFF, 0, 0, 0]), 5, 69);
    refused(&with_payload(&[20, 0, 0, 0, 1, 0x80, 0, 0, 0]), 5, 73);
    refused(&with_payload(&[20, 0, 0, 0, 1, 0x80, 0, 0]), 1, 76);
    refused(&with_payload(&[29, 0, 0, 0, 0, 0, 0, 0, 0]), 1, 77);
}

#[test]
fn sizes_do_not_wrap() {
    let empty = with_payload(&[&[24, 0, 0, 0, 0][..], &MOST].concat());
    assert_eq!(table_of(&empty), [[24, 68, 77, 0, 0, 0]]);
    refused(&with_payload(&[&[23][..], &MOST, &MOST].concat()), 1, 77);
    // Products that are 0 in 32 or in 64 bits.
    let half = [0x40, 0, 0, 0];
    refused(&with_payload(&[&[21][..], &half, &half].concat()), 1, 77);
    refused(&with_payload(&[&[21][..], &[0, 1, 0, 0], &[0, 1, 0, 0]].concat()), 1, 77);
    refused(&with_payload(&[&[14][..], &[0x20, 0, 0, 0]].concat()), 1, 73);
    refused(&with_payload(&[&[30][..], &half, &half, &[0, 0]].concat()), 1, 79);
}

#[test]
fn marks_item_by_item() {
    refused(&with_payload(&[25, 16, 22, 1, 2, 3, 4]), 12, 70);
    refused(&with_payload(&[25, 29, 0, 0]), 11, 69);
    refused(&with_payload(&[25, 29]), 11, 69);
    refused(&with_payload(&[25]), 1, 69);
    refused(&with_payload(&[25, 16]), 1, 70);
    refused(&with_payload(&[26, 100, 3]), 1, 71);
    refused(&with_payload(&[26, 100, 0, 0]), 19, 70);
    refused(&with_payload(&[26, 100, 3, 0xE9]), 19, 70);
    refused(&with_payload(&[26, 101, 3, 0xE9, 99]), 19, 70);
    refused(&with_payload(&[26, 101, 3, 0xE8]), 1, 72);
    refused(&with_payload(&[26, 101, 3, 0xE8, 22]), 12, 72);
    for unknown in [29, 99, 107, 255] {
        refused(&with_payload(&[26, unknown, 0, 0, 0, 0, 0, 0, 0, 0, 0]), 11, 69);
    }
}

#[test]
fn every_unit_type() {
    let last = [
        0, 8, 1, 6, 3, 21, 1, 16, 7, 8, 8, 38, 1, 15, 6, 16, 21, 21, 21, 24, 15, 16, 13, 4, 4, 10,
        15, 3, 27,
    ];
    for (unit, last) in last.into_iter().enumerate() {
        let field = |display| with_payload(&[25, unit as u8, display, 0, 0, 0, 0]);
        assert_eq!(table_of(&field(last)), [[25, 68, 71, 4, 1, 1]]);
        refused(&field(last + 1), 12, 70);
    }
    for (unit, last) in (101..).zip([21, 38, 21, 24, 10, 27]) {
        let field = |display| with_payload(&[25, unit, 0, 8, display, 0, 0, 0, 0]);
        assert_eq!(table_of(&field(last)), [[25, 68, 73, 4, 1, 1]]);
        refused(&field(last + 1), 12, 72);
    }
    assert_eq!(table_of(&with_payload(&[25, 100, 3, 0xE8, 0, 0, 0, 0])), [[25, 68, 72, 4, 1, 1]]);
}

#[test]
fn money_per_area() {
    let field = [26, 101, 0x03, 0xD2, 21, 0x40, 0xA3, 0x88, 0, 0, 0, 0, 0];
    let message = with_payload(&field);
    assert_eq!(table_of(&message), [[26, 68, 73, 8, 1, 1]]);
    assert_eq!(judged(&message).expect("accepted").steps, 10);
}

#[test]
fn marks_per_column() {
    // Two columns, four rows: the time series of section 2.2.7.
    let head = [31, 0, 0, 0, 4, 0, 0, 0, 2, 26, 8, 0, 0];
    let message = with_payload(&[&head[..], &[0x40; 32]].concat());
    assert_eq!(table_of(&message), [[31, 68, 81, 32, 2, 8]]);
    assert_eq!(judged(&message).expect("accepted").steps, 11);
    // No rows: the marks of all columns are still there.
    let message = with_payload(&[32, 0, 0, 0, 0, 0, 0, 0, 3, 0, 0, 100, 0, 8, 101, 0, 8, 2]);
    assert_eq!(table_of(&message), [[32, 68, 86, 0, 3, 0]]);
    refused(&message[..85], 1, 85);
    // No columns: no marks, whatever the rows.
    let message = with_payload(&[&[31][..], &MOST, &[0; 4]].concat());
    assert_eq!(table_of(&message), [[31, 68, 77, 0, 0, 0]]);
    // Very many columns: the marks run out.
    refused(&with_payload(&[&[31, 0, 0, 0, 0][..], &MOST, &[0; 9]].concat()), 1, 86);
    refused(&with_payload(&[&[31, 0, 0, 0, 0][..], &MOST, &[0, 0, 0, 1]].concat()), 12, 80);
    // One mark even where a matrix has no values.
    assert_eq!(
        table_of(&with_payload(&[30, 0, 0, 0, 0, 0, 0, 0, 0, 2, 1])),
        [[30, 68, 79, 0, 1, 0]]
    );
}

#[test]
fn fields_of_the_manual() {
    let two = [27, 0, 0, 0, 2, 25, 7, 0x40, 0, 0, 0, 0x40, 0x20, 0, 0];
    assert_eq!(table_of(&with_payload(&two)), [[27, 68, 75, 8, 1, 2]]);
    let cost = [&[28, 0, 0, 0, 200, 100, 0x03, 0x48][..], &[1; 1600]].concat();
    assert_eq!(table_of(&with_payload(&cost)), [[28, 68, 76, 1600, 1, 200]]);
    let per_liter = [&[28, 0, 0, 0, 200, 106, 0x03, 0x48, 17][..], &[1; 1600]].concat();
    assert_eq!(table_of(&with_payload(&per_liter)), [[28, 68, 77, 1600, 1, 200]]);
    let hello = b"\x09\0\0\0\x0BHello world\x02\0\0\0\x18\x06\x01";
    let expected = [[9, 68, 73, 11, 0, 11], [2, 84, 85, 4, 0, 1], [6, 89, 90, 1, 0, 1]];
    assert_eq!(table_of(&with_fields(3, hello)), expected);
}

#[test]
fn a_refusal_fills_no_table() {
    let message = with_fields(3, &[0, 1, 0, 2, 33]);
    let mut table = [9; 24];
    assert_eq!(read(&message, Some(&mut table)), Err(Refusal::new(9, 72)));
    assert_eq!(table, [9; 24]);
    let mut short = [9; 5];
    assert_eq!(read(&S, Some(&mut short)), Err(Refusal::new(14, 0)));
    assert_eq!(short, [9; 5]);
}

#[test]
fn the_table_is_judged_between_header_and_fields() {
    // A fault in the header comes first, one in a field after.
    assert_eq!(read(&changed(64, 9), Some(&mut [])), Err(Refusal::new(6, 64)));
    assert_eq!(read(&changed(68, 99), Some(&mut [])), Err(Refusal::new(14, 0)));
    let none = with_fields(0, &[]);
    assert!(read(&none, Some(&mut [])).is_ok());
    assert_eq!(read(&with_fields(0, &[0]), Some(&mut [])), Err(Refusal::new(13, 68)));
    assert!(read(&S, Some(&mut [0; 6])).is_ok());
}

#[test]
fn the_longest_message() {
    let size: u32 = 65_536 - 73;
    let array = [&[11][..], &size.to_be_bytes(), &vec![7; size as usize]].concat();
    let longest = with_payload(&array);
    assert_eq!(longest.len(), 65_536);
    assert_eq!(table_of(&longest), [[11, 68, 73, size, 0, size]]);
    refused(&[&longest[..], &[0]].concat(), 8, 0);
    refused(&[0; 65_537], 8, 0);
    refused(&[0; 65_536], 2, 0);
}

#[test]
fn blanking() {
    let mut out = [0xEE; 80];
    assert_eq!(blank(&S, &mut out), Ok(77));
    assert_eq!(out[..69], S[..69]);
    assert_eq!(out[69..77], [0; 8]);
    assert_eq!(out[77..], [0xEE; 3]);
    let mut short = [0xEE; 76];
    assert_eq!(blank(&S, &mut short), Err(Refusal::new(14, 0)));
    assert_eq!(blank(&S[..70], &mut []), Err(Refusal::new(1, 70)));
    assert_eq!(short, [0xEE; 76]);
}

#[test]
fn blanking_keeps_counts_and_marks() {
    let payload =
        b"\x09\0\0\0\x02Hi\x20\0\0\0\x01\0\0\0\x02\x10\x0B\x65\0\x08\x03ABCDEFGHIJKLMNOP\x06\x01";
    let blanked = b"\x09\0\0\0\x02\0\0\x20\0\0\0\x01\0\0\0\x02\x10\x0B\x65\0\x08\x03\0\0\0\0\0\0\0\0\0\0\0\0\0\0\0\0\x06\0";
    let message = with_fields(3, payload);
    let mut out = vec![0xEE; message.len() + 1];
    assert_eq!(blank(&message, &mut out), Ok(message.len() as u64));
    assert_eq!(out[..PAYLOAD], message[..PAYLOAD]);
    assert_eq!(out[PAYLOAD..message.len()], blanked[..]);
    assert_eq!(out[message.len()], 0xEE);
}
