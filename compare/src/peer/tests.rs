//! The examples of the rules and of the manual, and the errors that look
//! reasonable.

mod asking;
mod commands;
mod ledger;
mod reading;
mod recordings;
mod senders;
mod sums;
mod writing;

use super::{read, Reading, Refusal};

/// The message of section 2.3.6 with the misprints put right.
pub(crate) const S: [u8; 77] = *b"\x09\0\0\0\x05SIM01\
    \x09\0\0\0\x09IDVV.14.2\
    \x09\0\0\0\x04MC.1\
    \x09\0\0\0\x05MM1.4\
    \x09\0\0\0\x06DSOL.3\
    \x03\0\0\0\0\0\0\0\x7C\0\x02\x01\0\x01\
    \x05\x3F\xC9\x99\x99\x99\x99\x99\x9A";

/// The place of the payload in [`S`].
const PAYLOAD: usize = 68;

/// `S` with one byte changed.
fn changed(place: usize, byte: u8) -> Vec<u8> {
    let mut message = S.to_vec();
    message[place] = byte;
    message
}

/// `S` with another payload, still of one field.
fn with_payload(payload: &[u8]) -> Vec<u8> {
    [&S[..PAYLOAD], payload].concat()
}

/// `S` with another count frame and payload.
fn with_fields(count: u16, payload: &[u8]) -> Vec<u8> {
    [&S[..66], &count.to_be_bytes(), payload].concat()
}

/// An encoded 8-bit string.
fn text(characters: &[u8]) -> Vec<u8> {
    [&[9][..], &(characters.len() as u32).to_be_bytes(), characters].concat()
}

/// A message with these encoded sender and type ids and these encoded fields.
///
/// Its run id and receiver are 16-bit numbers, so its sender frame is at 13.
fn sent(sender: &[u8], type_id: &[u8], number: i64, status: u8, fields: &[&[u8]]) -> Vec<u8> {
    let number = number.to_be_bytes();
    let count = (fields.len() as u16).to_be_bytes();
    let head = [&S[..10], &[1, 0, 7], sender, &[1, 0, 8], type_id, &[3], &number, &[0, status, 1]];
    [&head.concat(), &count[..], &fields.concat()].concat()
}

/// The answer without a table and, the same, with a table that has room.
fn judged(message: &[u8]) -> Result<Reading, Refusal> {
    let without = read(message, None);
    assert_eq!(read(message, Some(&mut [7; 1536])), without);
    without
}

/// Checks that a message is refused with this number at this place.
#[track_caller]
fn refused(message: &[u8], number: u32, place: u64) {
    assert_eq!(judged(message), Err(Refusal { number, place }));
}

/// The table of an accepted message, with what follows it untouched.
#[track_caller]
fn table_of(message: &[u8]) -> Vec<[u32; 6]> {
    let mut table = [0xDEAD_BEEF; 1290];
    let reading = read(message, Some(&mut table)).expect("accepted");
    let (used, rest) = table.split_at(6 * reading.fields as usize);
    assert!(rest.iter().all(|&entry| entry == 0xDEAD_BEEF));
    used.chunks_exact(6).map(|entry| entry.try_into().expect("six")).collect()
}
