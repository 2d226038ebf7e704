//! Writing.

use sim0mq::{read, value, Header, Mark, Refusal, RefusalKind, Value, Writer, MOST_BYTES};

use crate::{carrying, told, S};

/// The header of S, declaring this many fields.
fn header(fields: usize) -> Header<'static> {
    Header { ids: &S[10..54], number: 124, status: 2, fields, count_type: Some(1) }
}

/// The message written anew from what reading tells of it, its scalars as values where asked.
fn rewritten(bytes: &[u8], as_values: bool) -> Result<Vec<u8>, Refusal> {
    let mut out = [0xAA; MOST_BYTES];
    let message = read(bytes)?;
    let mut writer = Writer::open(&mut out, &message.header())?;
    for field in &message {
        match field.value() {
            Ok(value) if as_values && !matches!(value, Value::NotNumber(_)) => {
                writer.add_value(value)?
            }
            _ => writer.add(field.encoded())?,
        };
    }
    Ok(writer.close()?.to_vec())
}

/// How opening with this header is refused, which leaves the output as it was.
fn not_opened(header: &Header, room: usize) -> (u8, usize) {
    let mut out = vec![0xAA; room];
    let refusal = Writer::open(&mut out, header).unwrap_err();
    assert!(out.iter().all(|&byte| byte == 0xAA));
    told(refusal)
}

#[test]
fn the_sample_comes_back_byte_for_byte() {
    assert_eq!(rewritten(S, false).unwrap(), S);
    assert_eq!(rewritten(S, true).unwrap(), S);
}

#[test]
fn any_message_comes_back_byte_for_byte() {
    let nan = b"\x04\x7F\xC0\0\x01\x09\0\0\0\x02hi\x1A\x65\x03\xD2\x15\x40\xA3\x88\0\0\0\0\0";
    let byte_count = [&S[..65], &[0, 1], &S[68..]].concat();
    let int_count = [&S[..65], &[2, 0, 0, 0, 0]].concat();
    for bytes in [carrying(3, nan), carrying(0, &[]), byte_count, int_count] {
        assert_eq!(rewritten(&bytes, false).unwrap(), bytes);
        assert_eq!(rewritten(&bytes, true).unwrap(), bytes);
    }
}

#[test]
fn each_call_answers_the_bytes_written_and_the_rest_stays() {
    let mut out = [0xAA; 100];
    let mut writer = Writer::open(&mut out, &header(2)).unwrap();
    assert_eq!((writer.written(), writer.declared(), writer.added()), (68, 2, 0));
    assert_eq!(writer.add(&[6, 1]), Ok(70));
    assert_eq!(writer.add_value(Value::Short(-2)), Ok(73));
    assert_eq!((writer.written(), writer.declared(), writer.added()), (73, 2, 2));
    assert_eq!(writer.close().unwrap(), carrying(2, &[6, 1, 1, 0xFF, 0xFE]));
    assert_eq!(out[73..], [0xAA; 27]);
}

#[test]
fn a_count_whose_type_is_not_stated_is_a_32_bit_int() {
    let mut out = [0; 100];
    let unstated = Header { count_type: None, ..header(0) };
    let message = Writer::open(&mut out, &unstated).unwrap().close().unwrap();
    assert_eq!(message[65..], [2, 0, 0, 0, 0]);
    assert_eq!(read(message).unwrap().count_type(), 2);
}

#[test]
fn a_finished_message_may_be_changed_in_place() {
    let mut out = [0; 100];
    let message = Writer::open(&mut out, &header(0)).unwrap().close().unwrap();
    message[64] = 3;
    assert_eq!(read(message).unwrap().status(), 3);
}

#[test]
fn refusals_of_opening() {
    let good = header(1);
    assert_eq!(not_opened(&Header { ids: &[], ..good }, 100), (1, 0));
    assert_eq!(not_opened(&Header { ids: &S[10..53], ..good }, 100), (1, 43));
    assert_eq!(not_opened(&Header { ids: &S[9..54], ..good }, 100), (4, 0));
    assert_eq!(not_opened(&Header { ids: &[9, 0xFF, 0, 0, 0], ..good }, 100), (5, 1));
    assert_eq!(not_opened(&Header { ids: &S[10..55], ..good }, 100), (13, 44));
    assert_eq!(not_opened(&Header { status: 4, ..good }, 100), (6, 0));
    assert_eq!(not_opened(&Header { count_type: Some(3), ..good }, 100), (4, 0));
    assert_eq!(not_opened(&Header { fields: 257, ..good }, 100), (7, 0));
    assert_eq!(not_opened(&Header { fields: 128, count_type: Some(0), ..good }, 100), (7, 0));
    let long = [&[9, 0, 1, 0, 0], &[b'a'; MOST_BYTES][..], &[1, 0, 1].repeat(3)].concat();
    assert_eq!(not_opened(&Header { ids: &long, ..good }, 100), (8, 0));
    assert_eq!(not_opened(&good, 67), (14, 0));
    assert_eq!(not_opened(&good, 0), (14, 0));
}

#[test]
fn a_refused_adding_changes_nothing() {
    let mut out = [0xAA; 80];
    let mut writer = Writer::open(&mut out, &header(2)).unwrap();
    let faults: [(&[u8], (u8, usize)); 6] = [
        (&[], (1, 0)),
        (&[33], (9, 0)),
        (&[6, 2], (10, 1)),
        (&[6, 1, 0], (13, 2)),
        (b"\x09\0\0\0\x08too long", (14, 0)),
        (&S[68..76], (1, 8)),
    ];
    for (field, refusal) in faults {
        assert_eq!(told(writer.add(field).unwrap_err()), refusal);
        assert_eq!((writer.written(), writer.declared(), writer.added()), (68, 2, 0));
    }
    assert_eq!(writer.add(&S[68..]), Ok(77));
    assert_eq!(told(writer.add_value(Value::Int(0)).unwrap_err()), (14, 0));
    assert_eq!(writer.add_value(Value::Byte(5)), Ok(79));
    assert_eq!(told(writer.add_value(Value::Byte(5)).unwrap_err()), (15, 0));
    assert_eq!(told(writer.add(&[]).unwrap_err()), (15, 0));
    assert_eq!(writer.close().unwrap(), carrying(2, &[&S[68..], &[0, 5]].concat()));
    assert_eq!(out[79], 0xAA);
}

#[test]
fn a_refused_closing_hands_the_writer_back() {
    let mut out = [0xAA; 100];
    let mut writer = Writer::open(&mut out, &header(2)).unwrap();
    for field in [&S[68..], &[6, 1]] {
        let unfinished = writer.close().unwrap_err();
        assert_eq!(unfinished.refusal(), Refusal::new(RefusalKind::WriterState, 0));
        let words = "refused 15 at 0: call out of turn in the writer or the recorder";
        assert_eq!(unfinished.to_string(), words);
        writer = unfinished.into_writer();
        writer.add(field).unwrap();
    }
    assert_eq!(writer.close().unwrap(), carrying(2, &[&S[68..], &[6, 1]].concat()));
}

#[test]
fn a_message_grows_to_the_most_bytes_and_no_further() {
    let mut out = vec![0; MOST_BYTES + 100];
    let mut writer = Writer::open(&mut out, &header(2)).unwrap();
    let long = [&[9, 0, 0, 0xFF, 0xB6], &[b'a'; 0xFFB6][..]].concat();
    assert_eq!(writer.add(&long), Ok(MOST_BYTES - 1));
    assert_eq!(told(writer.add_value(Value::Byte(0)).unwrap_err()), (8, 0));
    assert_eq!(told(writer.add(&[0, 0]).unwrap_err()), (8, 0));
}

/// The values that come back from a message with this one field, or the refusal of adding it.
fn carried(value_in: Value) -> Result<Value, Refusal> {
    let mut out = [0; 100];
    let mut writer = Writer::open(&mut out, &header(1))?;
    writer.add_value(value_in)?;
    value(writer.close()?, 0)
}

#[test]
fn every_kind_of_value_comes_back() {
    let plain = Mark { unit: 16, currency: 0, display: 21 };
    let sum = Mark { unit: 100, currency: 1000, display: 0 };
    let price = Mark { unit: 106, currency: 8, display: 27 };
    let integers = [i8::MIN, -1, 0, 1, i8::MAX].map(Value::Byte).into_iter();
    let values = integers
        .chain([i16::MIN, -1, 0, i16::MAX].map(Value::Short))
        .chain([i32::MIN, -1, 0, i32::MAX].map(Value::Int))
        .chain([i64::MIN, -1, 0, i64::MAX].map(Value::Long))
        .chain([f32::MIN, 1e-45, 0.2, f32::INFINITY].map(Value::Float))
        .chain([f64::MIN, 5e-324, 0.2, f64::NEG_INFINITY].map(Value::Double))
        .chain([false, true].map(Value::Boolean))
        .chain([0, 0x80, 0xFF].map(Value::Char8))
        .chain([0, 0x8000, 0xFFFF].map(Value::Char16))
        .chain([plain, sum, price].map(|mark| Value::FloatUnit(-0.5, mark)))
        .chain([plain, sum, price].map(|mark| Value::DoubleUnit(f64::MAX, mark)));
    for value in values {
        assert!(carried(value) == Ok(value), "{value:?}");
    }
}

#[test]
fn the_sign_of_zero_comes_back() {
    let float = carried(Value::Float(-0.0)).unwrap();
    assert!(matches!(float, Value::Float(x) if x.is_sign_negative()));
    let double = carried(Value::Double(-0.0)).unwrap();
    assert!(matches!(double, Value::Double(x) if x.is_sign_negative()));
}

#[test]
fn what_is_no_number_is_not_added() {
    let mark = Mark { unit: 16, currency: 0, display: 0 };
    let values = [
        Value::Float(f32::NAN),
        Value::Float(-f32::NAN),
        Value::Double(f64::NAN),
        Value::Double(f64::from_bits(0xFFF0_0000_0000_0001)),
        Value::FloatUnit(f32::NAN, mark),
        Value::DoubleUnit(f64::NAN, mark),
        Value::NotNumber(5),
        Value::NotNumber(255),
    ];
    for value in values {
        assert_eq!(carried(value).map_err(told), Err((17, 0)), "{value:?}");
    }
}

#[test]
fn forged_marks_are_not_added() {
    let marks = [
        (29, 0, 0),
        (99, 0, 0),
        (107, 1, 0),
        (255, 0, 0),
        (16, 0, 22),
        (16, 1, 0),
        (0, 0, 1),
        (100, 0, 0),
        (100, 1001, 0),
        (100, 3, 0),
        (100, 8, 1),
        (101, 0, 0),
        (101, 978, 22),
        (106, 978, 28),
    ];
    for (unit, currency, display) in marks {
        let mark = Mark { unit, currency, display };
        assert_eq!(carried(Value::FloatUnit(1.0, mark)).map_err(told), Err((17, 0)), "{unit}");
        assert_eq!(carried(Value::DoubleUnit(1.0, mark)).map_err(told), Err((17, 0)), "{unit}");
    }
}
