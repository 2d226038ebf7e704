//! Pieces of JSON.

use sim0mq::Refusal;

/// A text in quotes.
pub fn text(text: &str) -> String {
    units(text.encode_utf16())
}

/// A text in quotes, by its units of 16 bits; those that are no ASCII are escaped.
pub fn units(text: impl Iterator<Item = u16>) -> String {
    let mut quoted = String::from('"');
    for unit in text {
        match u8::try_from(unit) {
            Ok(byte @ (b'"' | b'\\')) => quoted.extend(['\\', char::from(byte)]),
            Ok(byte @ b' '..=b'~') => quoted.push(char::from(byte)),
            _ => quoted.push_str(&format!("\\u{unit:04x}")),
        }
    }
    quoted.push('"');
    quoted
}

/// A number, or in quotes what is infinite.
pub fn number(number: &str) -> String {
    match number {
        "inf" => text("Infinity"),
        "-inf" => text("-Infinity"),
        finite => finite.to_string(),
    }
}

/// The members of a refusal.
pub fn refusal(refusal: Refusal) -> String {
    let meaning = text(refusal.kind().meaning());
    format!(
        "\"refused\": {}, \"at\": {}, \"meaning\": {meaning}",
        refusal.number(),
        refusal.place()
    )
}

/// Members one after the other.
pub fn list<T>(items: impl IntoIterator<Item = T>, each: impl FnMut(T) -> String) -> String {
    items.into_iter().map(each).collect::<Vec<_>>().join(", ")
}
