//! The messages and recordings that are timed. But for musters and commands, all have the header of the
//! manual's example.

use crate::peer::recordings::{self, Recorder, MOST_MESSAGES};

/// A message to time with.
pub struct Sample {
    /// What it is called in a table.
    pub name: &'static str,
    /// The message.
    pub bytes: Vec<u8>,
    /// Its encoded fields, in order.
    pub fields: Vec<Vec<u8>>,
}

/// The bytes of the header, whose count is of type 1.
const HEADER: usize = 68;
/// Where the four ids are.
pub const IDS: std::ops::Range<usize> = 10..54;

/// All messages of the table.
#[must_use]
pub fn samples() -> Vec<Sample> {
    let mut refused = byte_fields(256).fields;
    refused[255][0] = 33;
    vec![
        message("S", vec![b"\x05\x3F\xC9\x99\x99\x99\x99\x99\x9A".to_vec()]),
        byte_fields(256),
        message("4,000 doubles", vec![array(16, 4_000, vec![0x3F; 32_000])]),
        message("32,000 Booleans", vec![array(17, 32_000, booleans(32_000))]),
        message("4,000 columns with marks", vec![matrix(4_000)]),
        message("256 byte fields, the last refused", refused),
        message("256 scalars of mixed codes", (0..256).map(scalar).collect()),
    ]
}

/// A message of so many byte fields, 256 at most.
#[must_use]
pub fn byte_fields(fields: usize) -> Sample {
    message("256 byte fields", (0..fields).map(|number| vec![0, number as u8]).collect())
}

/// A message of so many bytes, 73 at least, in which one array of Booleans is all there is.
#[must_use]
pub fn boolean_bytes(length: usize) -> Sample {
    let size = length - HEADER - 5;
    message("Booleans", vec![array(17, size as u32, booleans(size))])
}

/// A message of so many bytes, 73 at least, in which one array of bytes is all there is.
#[must_use]
pub fn any_bytes(length: usize) -> Sample {
    let size = length - HEADER - 5;
    message("bytes", vec![array(11, size as u32, vec![0x3F; size])])
}

/// A muster from the sender of this number, below 100: one joins the first deck, and leaves the second where
/// there are two.
#[must_use]
pub fn muster(sender: u8, decks: &[u8]) -> Sample {
    let sender = [b"MC.".as_slice(), &[b'0' + sender / 10, b'0' + sender % 10]].concat();
    let fields = decks.iter().map(|&deck| vec![0, deck]).collect();
    addressed("a muster", &sender, b"MUS.1", decks.len() as u8, fields)
}

/// Gives a message of a muster's ids and fields another number.
pub fn renumber(muster: &mut [u8], number: i64) {
    const AT: usize = 55;
    muster[AT..AT + 8].copy_from_slice(&number.to_be_bytes());
}

/// The recording of as many who join as there may be messages, from 32 senders, on all decks.
#[must_use]
pub fn joined() -> Vec<u8> {
    let mut number = 0;
    recorded(|| {
        let mut message = muster(number as u8 % 32, &[number as u8 % 16]).bytes;
        number += 1;
        renumber(&mut message, number);
        message
    })
}

/// Commands: the one of the most fields, and one of none.
#[must_use]
pub fn commands() -> [Sample; 2] {
    let words = ["m", "1", "", "java", "-jar", "model.jar", "", "work", "work/out"];
    let text =
        |word: &str| [&[9][..], &(word.len() as u32).to_be_bytes(), word.as_bytes()].concat();
    let fields = words.map(text).into_iter().chain([0, 1, 1].map(|deleted| vec![6, deleted]));
    [
        addressed("FM.1, of 12 fields", b"FM", b"FM.1", 1, fields.collect()),
        addressed("FM.4, of none", b"FM", b"FM.4", 1, Vec::new()),
    ]
}

/// The recording of as many of a message as there may be.
#[must_use]
pub fn recording(message: &[u8]) -> Vec<u8> {
    recorded(|| message.to_vec())
}

/// The recording of as many messages as there may be.
fn recorded(mut next: impl FnMut() -> Vec<u8>) -> Vec<u8> {
    let mut bytes = vec![0; MOST_MESSAGES as usize * (2_000 + 8) + 10];
    let mut state = Recorder::NEW;
    for _ in 0..MOST_MESSAGES {
        state = recordings::add(state, &next(), &mut bytes).1;
    }
    let length = recordings::close(state, &mut bytes).0.expect("the recording is closed");
    bytes.truncate(length as usize);
    bytes
}

/// A message of these fields.
fn message(name: &'static str, fields: Vec<Vec<u8>>) -> Sample {
    addressed(name, b"MC.1", b"DSOL.3", 2, fields)
}

/// A message of this sender, type id, status and fields.
fn addressed(
    name: &'static str,
    sender: &[u8],
    type_id: &[u8],
    status: u8,
    fields: Vec<Vec<u8>>,
) -> Sample {
    let mut bytes = Vec::new();
    for id in [b"SIM01", &b"IDVV.14.2"[..], sender, b"MM1.4", type_id] {
        bytes.extend([9, 0, 0, 0, id.len() as u8]);
        bytes.extend(id);
    }
    bytes.extend(b"\x03\0\0\0\0\0\0\0\x7C\0");
    bytes.extend([status, 1]);
    bytes.extend((fields.len() as u16).to_be_bytes());
    bytes.extend(fields.concat());
    Sample { name, bytes, fields }
}

/// A field of a code, a count and bytes.
fn array(code: u8, count: u32, bytes: Vec<u8>) -> Vec<u8> {
    [&[code][..], &count.to_be_bytes(), &bytes].concat()
}

/// A scalar field of one of the codes 0 to 8, which change from one number to the next.
fn scalar(number: usize) -> Vec<u8> {
    let code = (number * number + number / 7) % 9;
    let size = [1, 2, 4, 8, 4, 8, 1, 1, 2][code];
    [vec![code as u8], vec![1; size]].concat()
}

/// So many Booleans, some of them true.
fn booleans(size: usize) -> Vec<u8> {
    (0..size).map(|number| (number % 3 == 0) as u8).collect()
}

/// A row of floats with a mark for each of its columns.
fn matrix(columns: u32) -> Vec<u8> {
    let marks: [&[u8]; 4] = [&[16, 11], &[26, 3], &[100, 3, 0xD2], &[101, 3, 0xD2, 21]];
    let mut rest = columns.to_be_bytes().to_vec();
    for column in 0..columns as usize {
        rest.extend(marks[column % 4]);
    }
    rest.extend(vec![0x41; 4 * columns as usize]);
    array(31, 1, rest)
}

#[cfg(test)]
mod tests {
    use super::{
        any_bytes, boolean_bytes, byte_fields, commands, joined, muster, recording, samples,
    };
    use crate::peer::{self, read, Refusal};

    #[test]
    fn samples_are_what_they_say() {
        let samples = samples();
        let accepted = |number: usize| read(&samples[number].bytes, None);
        assert!((0..5).all(|number| accepted(number).is_ok()));
        assert_eq!(accepted(0).map(|reading| reading.length), Ok(77));
        assert_eq!(accepted(1).map(|reading| reading.fields), Ok(256));
        assert_eq!(accepted(4).map(|reading| reading.steps), Ok(8 + 1 + 4_000));
        assert_eq!(accepted(5), Err(Refusal::new(9, 68 + 2 * 255)));
        assert_eq!(accepted(6).map(|reading| reading.steps), Ok(8 + 256));
    }

    #[test]
    fn growing_samples_have_their_size() {
        for length in [73, 100, 65_536] {
            for sample in [boolean_bytes(length), any_bytes(length)] {
                let read = read(&sample.bytes, None);
                assert_eq!(read.map(|reading| reading.length), Ok(length as u64));
            }
        }
        for fields in [1, 256] {
            let read = read(&byte_fields(fields).bytes, None);
            assert_eq!(read.map(|reading| reading.fields), Ok(fields as u64));
        }
    }
    #[test]
    fn parts_are_timed_on_what_they_say() {
        let [most, none] = commands().map(|sample| peer::commands::command(&sample.bytes));
        assert_eq!((most, none), (Ok(1), Ok(4)));
        let (mut ledger, mut book) = ([1; 16], peer::senders::empty());
        for sender in 0..32 {
            let message = muster(sender, &[3, 3]).bytes;
            let taken = peer::ledger::muster(&mut ledger, &mut book, &message);
            assert_eq!(taken, Ok(sender.into()));
        }
        let reckoned =
            peer::ledger::reckon(&joined()).map(|reckoned| (reckoned.ledger, reckoned.applied));
        assert_eq!(reckoned, Ok(([256; 16], 4096)));
        assert_eq!(peer::recordings::open(&recording(&samples()[0].bytes)), Ok(4096));
    }
}
