//! Scalar values, as asking answers them and the writer takes them.

use std::fmt;

use crate::raw::{Scalar, VALUE_NUMBERS};

/// The unit mark of a float or a double. What it has no item for is 0.
///
/// Any numbers may be put together here; the [`Writer`](crate::Writer) refuses by 17 a mark that
/// no message can have. `Debug` shows none of them.
#[derive(Clone, Copy, PartialEq, Eq, Hash)]
pub struct Mark {
    /// The unit type: 0 to 28, or, for money, 100 to 106.
    pub unit: u8,
    /// The currency code, one of the manual's list (8 to 1000) where the unit type is 100 or above.
    pub currency: u16,
    /// The display code, within the range of the unit type.
    pub display: u8,
}

impl Mark {
    /// A mark of no item, for values that have none.
    const NONE: Mark = Mark { unit: 0, currency: 0, display: 0 };
}

impl fmt::Debug for Mark {
    fn fmt(&self, f: &mut fmt::Formatter<'_>) -> fmt::Result {
        f.write_str("Mark(..)")
    }
}

/// The value of a scalar field.
///
/// `Debug` shows the kind alone, so that a report with a value in it does not tell it, and there
/// is no `Display`.
///
/// ```
/// use sim0mq::Value;
///
/// assert_eq!(format!("{:?}", Value::Double(0.2)), "Double(..)");
/// ```
#[derive(Clone, Copy, PartialEq)]
pub enum Value {
    /// A signed number of 8 bits: code 0.
    Byte(i8),
    /// A signed number of 16 bits: code 1.
    Short(i16),
    /// A signed number of 32 bits: code 2.
    Int(i32),
    /// A signed number of 64 bits: code 3.
    Long(i64),
    /// A float: code 4. Asking never answers a NaN here, and the writer refuses one by 17.
    Float(f32),
    /// A double: code 5. Asking never answers a NaN here, and the writer refuses one by 17.
    Double(f64),
    /// A Boolean: code 6.
    Boolean(bool),
    /// A character of 8 bits: code 7.
    Char8(u8),
    /// A character of 16 bits: code 8.
    Char16(u16),
    /// A float with its unit: code 25. As `Float`, never a NaN.
    FloatUnit(f32, Mark),
    /// A double with its unit: code 26. As `Double`, never a NaN.
    DoubleUnit(f64, Mark),
    /// The bits of the field are a NaN; its code is 4, 5, 25 or 26. The writer refuses it by 17,
    /// and takes such bits in an encoded field.
    NotNumber(u8),
}

impl Value {
    /// The value that the numbers of a granted answer tell.
    pub(crate) fn answered(answer: &[u64; VALUE_NUMBERS]) -> Value {
        let [_, _, kind, bits, unit, currency, display] = *answer;
        let mark = Mark { unit: unit as u8, currency: currency as u16, display: display as u8 };
        match kind {
            0 => Value::Byte(bits as i8),
            1 => Value::Short(bits as i16),
            2 => Value::Int(bits as i32),
            3 => Value::Long(bits as i64),
            4 => Value::Float(f32::from_bits(bits as u32)),
            5 => Value::Double(f64::from_bits(bits)),
            6 => Value::Boolean(bits != 0),
            7 => Value::Char8(bits as u8),
            8 => Value::Char16(bits as u16),
            9 => Value::FloatUnit(f32::from_bits(bits as u32), mark),
            10 => Value::DoubleUnit(f64::from_bits(bits), mark),
            11 => Value::NotNumber(bits as u8),
            _ => unreachable!("a scalar has a kind from 0 to 11"),
        }
    }

    /// The numbers by which the writer is handed the value.
    pub(crate) fn numbers(self) -> Scalar {
        let (kind, bits, mark) = match self {
            Value::Byte(n) => (0, u64::from(n as u8), Mark::NONE),
            Value::Short(n) => (1, u64::from(n as u16), Mark::NONE),
            Value::Int(n) => (2, u64::from(n as u32), Mark::NONE),
            Value::Long(n) => (3, n as u64, Mark::NONE),
            Value::Float(x) => (4, u64::from(x.to_bits()), Mark::NONE),
            Value::Double(x) => (5, x.to_bits(), Mark::NONE),
            Value::Boolean(b) => (6, u64::from(b), Mark::NONE),
            Value::Char8(c) => (7, u64::from(c), Mark::NONE),
            Value::Char16(c) => (8, u64::from(c), Mark::NONE),
            Value::FloatUnit(x, mark) => (9, u64::from(x.to_bits()), mark),
            Value::DoubleUnit(x, mark) => (10, x.to_bits(), mark),
            Value::NotNumber(code) => (11, u64::from(code), Mark::NONE),
        };
        let Mark { unit, currency, display } = mark;
        Scalar { kind, bits, unit, currency, display }
    }

    /// The name of the kind.
    fn name(self) -> &'static str {
        match self {
            Value::Byte(_) => "Byte",
            Value::Short(_) => "Short",
            Value::Int(_) => "Int",
            Value::Long(_) => "Long",
            Value::Float(_) => "Float",
            Value::Double(_) => "Double",
            Value::Boolean(_) => "Boolean",
            Value::Char8(_) => "Char8",
            Value::Char16(_) => "Char16",
            Value::FloatUnit(..) => "FloatUnit",
            Value::DoubleUnit(..) => "DoubleUnit",
            Value::NotNumber(_) => "NotNumber",
        }
    }
}

impl fmt::Debug for Value {
    fn fmt(&self, f: &mut fmt::Formatter<'_>) -> fmt::Result {
        write!(f, "{}(..)", self.name())
    }
}
