//! The type id of a message as one word: whatever is in it, the line of a listing stays a line.

use sim0mq::Id;

use crate::json;

/// What an id is written as: an 8-bit string as it is, one of 16 bits in `u".."`, a number in
/// `short".."` or `int".."`. What is no printable ASCII, a space, a quote and a backslash are
/// escaped, so that no two ids are written alike.
pub fn word(id: Id<'_>) -> String {
    match (id.code(), id.number()) {
        (1, Some(number)) => format!("short\"{number}\""),
        (_, Some(number)) => format!("int\"{number}\""),
        (10, None) => format!("u\"{}\"", escaped(wide(id.bytes()), 4)),
        (_, None) if id.bytes().is_empty() => "\"\"".to_string(),
        (_, None) => escaped(id.bytes().iter().copied().map(u16::from), 2),
    }
}

/// An id in JSON: its code, and its text or its number.
pub fn json(id: Id<'_>) -> String {
    let what = match (id.code(), id.number()) {
        (_, Some(number)) => format!("\"number\": {number}"),
        (10, None) => format!("\"text\": {}", json::units(wide(id.bytes()))),
        (_, None) => {
            format!("\"text\": {}", json::units(id.bytes().iter().copied().map(u16::from)))
        }
    };
    format!("{{\"code\": {}, {what}}}", id.code())
}

/// The characters of 16 bits.
fn wide(bytes: &[u8]) -> impl Iterator<Item = u16> + '_ {
    bytes.chunks_exact(2).map(|pair| u16::from_be_bytes([pair[0], pair[1]]))
}

/// The characters, with those escaped that could not stand in a word, by so many digits.
fn escaped(characters: impl Iterator<Item = u16>, digits: usize) -> String {
    let mut word = String::new();
    for character in characters {
        match u8::try_from(character) {
            Ok(plain @ b'!'..=b'~') if !matches!(plain, b'"' | b'\\') => word.push(plain.into()),
            _ => word.push_str(&format!("\\x{character:0digits$x}")),
        }
    }
    word
}
