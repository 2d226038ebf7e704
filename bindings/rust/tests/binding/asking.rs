//! Asking for values and views.

use sim0mq::{read, value, view, Mark, Value};

use crate::{carrying, told, with, S};

/// The value of the one field that this payload has.
fn asked(payload: &[u8]) -> Value {
    let message = carrying(1, payload);
    let answer = value(&message, 0).unwrap();
    assert_eq!(read(&message).unwrap().field(0).unwrap().value(), Ok(answer));
    answer
}

#[test]
fn the_samples_value_is_a_double() {
    assert_eq!(value(S, 0), Ok(Value::Double(0.2)));
    assert_eq!(view(S, 0), Ok(&S[69..]));
}

#[test]
fn each_scalar_code_has_its_kind() {
    assert!(asked(&[0, 0x80]) == Value::Byte(-128));
    assert!(asked(&[1, 0xFF, 0xFE]) == Value::Short(-2));
    assert!(asked(&[2, 0, 0, 3, 56]) == Value::Int(824));
    assert!(asked(&[3, 0x80, 0, 0, 0, 0, 0, 0, 0]) == Value::Long(i64::MIN));
    assert!(asked(&[4, 0xC0, 0x40, 0, 0]) == Value::Float(-3.0));
    assert!(asked(&[5, 0x40, 0xED, 0x4C, 0, 0, 0, 0, 0]) == Value::Double(60000.0));
    assert!(asked(&[6, 0]) == Value::Boolean(false));
    assert!(asked(&[6, 1]) == Value::Boolean(true));
    assert!(asked(&[7, 0xE9]) == Value::Char8(0xE9));
    assert!(asked(&[8, 0x20, 0xAC]) == Value::Char16(0x20AC));
    let metres = Mark { unit: 16, currency: 0, display: 21 };
    assert!(asked(&[25, 16, 21, 0x40, 0x40, 0, 0]) == Value::FloatUnit(3.0, metres));
    let money = Mark { unit: 101, currency: 978, display: 21 };
    let field = b"\x1A\x65\x03\xD2\x15\x40\xA3\x88\0\0\0\0\0";
    assert!(asked(field) == Value::DoubleUnit(2500.0, money));
}

#[test]
fn bits_that_are_no_number_are_told_by_the_code() {
    assert!(asked(&[4, 0x7F, 0x80, 0, 1]) == Value::NotNumber(4));
    assert!(asked(&[5, 0xFF, 0xF8, 0, 0, 0, 0, 0, 0]) == Value::NotNumber(5));
    assert!(asked(&[25, 0, 0, 0xFF, 0xC0, 0, 0]) == Value::NotNumber(25));
    assert!(asked(&[26, 0, 0, 0x7F, 0xF0, 0, 0, 0, 0, 0, 1]) == Value::NotNumber(26));
    assert!(asked(&[4, 0xFF, 0x80, 0, 0]) == Value::Float(f32::NEG_INFINITY));
}

#[test]
fn refusals_of_asking() {
    assert_eq!(told(value(S, 1).unwrap_err()), (16, 0));
    assert_eq!(told(value(S, usize::MAX).unwrap_err()), (16, 0));
    assert_eq!(told(view(S, 1).unwrap_err()), (16, 0));
    let text = carrying(1, b"\x09\0\0\0\x02hi");
    assert_eq!(told(value(&text, 0).unwrap_err()), (17, 0));
    assert_eq!(told(read(&text).unwrap().field(0).unwrap().value().unwrap_err()), (17, 0));
    assert_eq!(view(&text, 0), Ok(&b"hi"[..]));
    let damaged = with(&[(64, 4)]);
    assert_eq!(told(value(&damaged, 9).unwrap_err()), (6, 64));
    assert_eq!(told(view(&damaged, 9).unwrap_err()), (6, 64));
}

#[test]
fn the_view_and_the_tables_bytes_are_one_part() {
    let message = carrying(3, b"\x09\0\0\0\x02hi\x06\x01\x0B\0\0\0\x03abc");
    for field in &read(&message).unwrap() {
        let part = view(&message, field.k()).unwrap();
        assert_eq!(part.as_ptr(), field.bytes().as_ptr());
        assert_eq!(part.len(), field.len());
    }
}
