//! Scalar values as asking returns them and adding takes them.

use super::payload::Field;
use super::unit;

/// The kind of a value that is not a number.
const NOT_A_NUMBER: u8 = 11;
/// The most bytes of an encoded scalar: code, longest mark, double.
pub(super) const MOST: usize = 13;

/// One scalar value.
#[derive(Clone, Copy, Debug, Default, PartialEq, Eq)]
pub struct Value {
    /// 0 to 8 as the field codes, 9 and 10 float and double with a mark,
    /// 11 "not a number".
    pub kind: u8,
    /// The value in its own width; the field's code for kind 11.
    pub bits: u64,
    /// The unit type of the mark, or 0.
    pub unit: u8,
    /// The currency code of the mark, or 0.
    pub currency: u16,
    /// The display code of the mark, or 0.
    pub display: u8,
}

/// The value of an accepted field, if it is a scalar.
pub(super) fn take(message: &[u8], field: &Field) -> Option<Value> {
    let kind = match field.code {
        code @ 0..=8 => code,
        code @ 25..=26 => code - 16,
        _ => return None,
    };
    let values = &message[field.first..field.end()];
    let bits = values.iter().fold(0, |bits, &byte| bits << 8 | u64::from(byte));
    if is_nan(kind, bits) {
        let code = u64::from(field.code);
        return Some(Value { kind: NOT_A_NUMBER, bits: code, ..Value::default() });
    }
    let (unit, currency, display) = match message[field.place + 1..field.first] {
        [unit, display] => (unit, 0, display),
        [unit, high, low] => (unit, u16::from_be_bytes([high, low]), 0),
        [unit, high, low, display] => (unit, u16::from_be_bytes([high, low]), display),
        _ => (0, 0, 0),
    };
    Some(Value { kind, bits, unit, currency, display })
}

/// Encodes a value as a field, if it is one that adding takes.
///
/// The mark of a kind that has none is not looked at.
pub(super) fn encode(value: Value) -> Option<([u8; MOST], usize)> {
    let width: usize = match value.kind {
        0 | 6 | 7 => 1,
        1 | 8 => 2,
        2 | 4 | 9 => 4,
        3 | 5 | 10 => 8,
        _ => return None,
    };
    let most = if value.kind == 6 { 1 } else { u64::MAX >> (64 - 8 * width) };
    if value.bits > most || is_nan(value.kind, value.bits) {
        return None;
    }
    let mut field = [0; MOST];
    let mut first = 1;
    field[0] = value.kind;
    if value.kind >= 9 {
        field[0] = value.kind + 16;
        first += unit::encode(value.unit, value.currency, value.display, &mut field[1..])?;
    }
    field[first..first + width].copy_from_slice(&value.bits.to_be_bytes()[8 - width..]);
    Some((field, first + width))
}

/// Whether the bits of a float or double kind are a NaN.
fn is_nan(kind: u8, bits: u64) -> bool {
    match kind {
        4 | 9 => f32::from_bits(bits as u32).is_nan(),
        5 | 10 => f64::from_bits(bits).is_nan(),
        _ => false,
    }
}
