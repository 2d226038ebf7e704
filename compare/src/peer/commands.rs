//! Commands: the messages of the manual's chapter 4.

use super::header::Header;
use super::payload::Field;
use super::{accepted, fields, Refusal};
use Wanted::{Any, Code, Full, Stream, Text, Time, Word};

/// What a command has in one of its fields.
#[derive(Clone, Copy)]
enum Wanted {
    /// A value of this code.
    Code(u8),
    /// A string that may be empty.
    Text,
    /// A string that may not be empty.
    Full,
    /// One of these words.
    Word(&'static [&'static [u8]]),
    /// A number, or a float or double with this unit type.
    Time(u8),
    /// The identifier of a random stream.
    Stream,
    /// Anything.
    Any,
}

/// A row of chapter 4: type id, status and fields.
type Row = (&'static [u8], u8, &'static [Wanted]);

const NEW: u8 = 1;
const CHANGE: u8 = 2;
const LONG: Wanted = Code(3);
const BOOLEAN: Wanted = Code(6);
/// The words for the status of a model.
const STATUS: Wanted = Word(&[b"started", b"running", b"ended", b"error"]);
/// The words for an error of statistics.
const ERROR: Wanted = Word(&[b"name", b"novalue"]);

/// The commands in the order of their numbers, from 1.
const ROWS: [Row; 18] = [
    (
        b"FM.1",
        NEW,
        &[Full, Full, Text, Full, Text, Full, Text, Full, Full, BOOLEAN, BOOLEAN, BOOLEAN],
    ),
    (b"FM.2", NEW, &[Time(25), Time(25), Time(26), Code(5), Code(2), Code(2)]),
    (b"FM.3", NEW, &[Text, Any]),
    (b"FM.4", NEW, &[]),
    (b"FM.5", NEW, &[]),
    (b"FM.6", NEW, &[Text]),
    (b"FM.7", CHANGE, &[]),
    (b"FM.8", NEW, &[Text]),
    (b"FM.9", NEW, &[]),
    (b"FS.1", NEW, &[]),
    (b"FS.2", NEW, &[Text, STATUS, Code(1), Text]),
    (b"FS.3", NEW, &[]),
    (b"FS.4", NEW, &[Text, BOOLEAN, Text]),
    (b"FS.5", NEW, &[BOOLEAN, Text]),
    (b"MC.1", NEW, &[LONG, STATUS, Text]),
    (b"MC.2", NEW, &[LONG, BOOLEAN, Text]),
    (b"MC.3", NEW, &[Text, Any]),
    (b"MC.4", NEW, &[Text, ERROR]),
];
/// The number of the command whose fields end in pairs, FM.2.
const RUN_CONTROL: usize = 2;
/// What is in each pair.
const PAIR: [Wanted; 2] = [Stream, LONG];

impl Wanted {
    /// Whether a field's code, and its unit type, are right here.
    fn takes(self, message: &[u8], field: &Field) -> bool {
        match self {
            Code(code) => field.code == code,
            Text | Full | Word(_) => field.code == 9,
            Time(unit) => match field.code {
                1..=5 => true,
                25 | 26 => message[field.place + 1] == unit,
                _ => false,
            },
            Stream => matches!(field.code, 1..=3 | 9),
            Any => true,
        }
    }

    /// Whether a field of the right code says what it may say here.
    fn allows(self, message: &[u8], field: &Field) -> bool {
        let text = &message[field.first..field.end()];
        match self {
            Full => !text.is_empty(),
            Word(words) => words.contains(&text),
            _ => true,
        }
    }
}

/// Which command a message is: 1 to 9 for FM.1 to FM.9, 10 to 14 for FS.1 to
/// FS.5, 15 to 18 for MC.1 to MC.4.
#[must_use = "the command is the answer"]
pub fn command(message: &[u8]) -> Result<u64, Refusal> {
    let header = accepted(message)?;
    let place = header.frames[4].0 as usize;
    let (code, id) = header.id(message, 4);
    let found = ROWS.iter().position(|row| code == 9 && row.0 == id);
    let number = found.ok_or(Refusal::new(20, place))? + 1;
    let (_, status, wanted) = ROWS[number - 1];
    if header.status(message) != status || !right_number(message, &header, number)? {
        return Err(Refusal::new(21, place));
    }
    let with_wanted =
        || fields(message, &header).zip(wanted.iter().chain(PAIR.iter().cycle()).copied());
    if let Some((field, _)) = with_wanted().find(|(field, wanted)| !wanted.takes(message, field)) {
        return Err(Refusal::new(22, field.place));
    }
    if let Some((field, _)) = with_wanted().find(|(field, wanted)| !wanted.allows(message, field)) {
        return Err(Refusal::new(23, field.place));
    }
    Ok(number as u64)
}

/// Whether a command has the right number of fields; refused where the field
/// that tells it is no int.
fn right_number(message: &[u8], header: &Header, number: usize) -> Result<bool, Refusal> {
    let least = ROWS[number - 1].2.len();
    if number != RUN_CONTROL {
        return Ok(header.fields == least);
    }
    let Some(streams) = fields(message, header).nth(least - 1) else {
        return Ok(false);
    };
    if streams.code != 2 {
        return Err(Refusal::new(22, streams.place));
    }
    let value = message[streams.first..streams.end()].iter();
    let value = value.fold(0, |value: u32, &byte| value << 8 | u32::from(byte)) as i32;
    Ok(value >= 0 && header.fields as i64 == least as i64 + 2 * i64::from(value))
}
