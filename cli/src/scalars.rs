//! Scalar values as text, with the names of their units.

use sim0mq::{Mark, Value};

use crate::json;
use crate::units::{self, Sent, Unit};

/// A value as a line: the number, and for a unit what it is of, what it is counted in and in what
/// it is to be shown.
pub fn line(value: Value) -> String {
    let (_, number, mark) = parts(value);
    match mark.map(units::unit) {
        None => number,
        Some(None) => format!("{number} of a unit without a name"),
        Some(Some(unit)) => format!("{number} {}", unit_line(unit)),
    }
}

/// A value as JSON.
pub fn json(value: Value) -> String {
    let (kind, number, mark) = parts(value);
    let number = match value {
        Value::NotNumber(_) => "null".to_string(),
        Value::Char8(c) => c.to_string(),
        Value::Char16(c) => c.to_string(),
        _ => json::number(&number),
    };
    let unit = mark.and_then(units::unit).map_or(String::new(), unit_json);
    format!("{{\"kind\": {}, \"value\": {number}{unit}}}", json::text(kind))
}

/// The name of a value's kind, the value as text, and its mark.
fn parts(value: Value) -> (&'static str, String, Option<Mark>) {
    match value {
        Value::Byte(n) => ("byte", n.to_string(), None),
        Value::Short(n) => ("short", n.to_string(), None),
        Value::Int(n) => ("int", n.to_string(), None),
        Value::Long(n) => ("long", n.to_string(), None),
        Value::Float(x) => ("float", format!("{x:?}"), None),
        Value::Double(x) => ("double", format!("{x:?}"), None),
        Value::Boolean(b) => ("boolean", b.to_string(), None),
        Value::Char8(c) => ("char8", character(c.into()), None),
        Value::Char16(c) => ("char16", character(c), None),
        Value::FloatUnit(x, mark) => ("float with unit", format!("{x:?}"), Some(mark)),
        Value::DoubleUnit(x, mark) => ("double with unit", format!("{x:?}"), Some(mark)),
        Value::NotNumber(_) => ("not a number", "not a number".to_string(), None),
    }
}

/// The code of a character, and the character where it can be printed.
fn character(code: u16) -> String {
    match u8::try_from(code) {
        Ok(plain @ b' '..=b'~') => format!("{code} '{}'", char::from(plain)),
        _ => code.to_string(),
    }
}

/// A unit in words.
fn unit_line(unit: Unit) -> String {
    let sent = match unit.sent {
        Sent::Number => String::new(),
        Sent::Unit(name) | Sent::Money(name) => format!(" in {name}"),
        Sent::MoneyPer(currency, name) => format!(" in {currency} per {name}"),
    };
    let display = unit.display.map_or(String::new(), |name| format!(", display {name}"));
    format!("{}{sent}{display}", unit.name)
}

/// The members of a unit.
fn unit_json(unit: Unit) -> String {
    let member = |name: &str, value: &str| format!(", \"{name}\": {}", json::text(value));
    let sent = match unit.sent {
        Sent::Number => String::new(),
        Sent::Unit(name) => member("in", name),
        Sent::Money(currency) => member("currency", currency),
        Sent::MoneyPer(currency, name) => member("currency", currency) + &member("per", name),
    };
    let display = unit.display.map_or(String::new(), |name| member("display", name));
    format!("{}{sent}{display}", member("unit", unit.name))
}
