//! An independent reader, blanker and writer of typed big-endian messages, and
//! what is built on them: recordings, commands, sums, senders and the ledger.
//!
//! Nothing here allocates. A refused call leaves every lent buffer and every
//! state as they were.

pub mod commands;
mod header;
pub mod ledger;
mod payload;
pub mod recordings;
mod refusal;
mod scalar;
pub mod senders;
pub mod sums;
mod unit;
mod writer;

#[cfg(test)]
mod tests;

use header::Header;
use payload::Field;
pub use refusal::{Refusal, MEANINGS};
pub use scalar::Value;
pub use writer::{add, add_scalar, close, open, State};

/// The most bytes a message may have.
pub const MOST_BYTES: usize = 65_536;
/// The most payload fields a message may have.
pub const MOST_FIELDS: u64 = 256;
/// The numbers in the table for each field.
pub const PER_FIELD: usize = 6;
/// Up to here a message counts as one of few fields, which are kept in less space.
const FEW_FIELDS: usize = 16;

/// What reading answers about an accepted message.
#[derive(Clone, Copy, Debug, PartialEq, Eq)]
pub struct Reading {
    /// Bytes in the message.
    pub length: u64,
    /// Payload fields.
    pub fields: u64,
    /// Header frames, fields and marks together.
    pub steps: u64,
    /// Place of the first byte and type code of each header frame.
    pub frames: [(u64, u8); 8],
}

/// Reads a whole message and fills the lent table if all of it is accepted.
#[must_use = "a refused message fills no table"]
pub fn read(message: &[u8], table: Option<&mut [u32]>) -> Result<Reading, Refusal> {
    let header = begin(message)?;
    let Some(table) = table else {
        return accept(message, &header, |_, _| ());
    };
    if table.len() < PER_FIELD * header.fields {
        return Err(Refusal::new(14, 0));
    }
    if header.fields <= FEW_FIELDS {
        fill::<FEW_FIELDS>(message, &header, table)
    } else {
        fill::<{ MOST_FIELDS as usize }>(message, &header, table)
    }
}

/// The value of scalar field `k`.
#[must_use = "the value is the answer"]
pub fn value(message: &[u8], k: u64) -> Result<Value, Refusal> {
    let field = find(message, k)?;
    scalar::take(message, &field).ok_or(Refusal::new(17, 0))
}

/// The place and the number of the value bytes of field `k`.
#[must_use = "the view is the answer"]
pub fn view(message: &[u8], k: u64) -> Result<(u64, u64), Refusal> {
    let field = find(message, k)?;
    Ok((field.first as u64, field.size as u64))
}

/// Copies a message with all value bytes zero and answers its length.
#[must_use = "a refused message is not copied"]
pub fn blank(message: &[u8], out: &mut [u8]) -> Result<u64, Refusal> {
    let header = begin(message)?;
    if header.fields <= FEW_FIELDS {
        copy::<FEW_FIELDS>(message, &header, out)
    } else {
        copy::<{ MOST_FIELDS as usize }>(message, &header, out)
    }
}

/// Reads the header of a message that is not too long.
#[inline]
fn begin(message: &[u8]) -> Result<Header, Refusal> {
    if message.len() > MOST_BYTES {
        return Err(Refusal::new(8, 0));
    }
    header::read(message)
}

/// Judges the fields, shows each with its number to `each`, and answers the
/// place after them and the number of their marks.
#[inline]
fn walk(
    message: &[u8],
    header: &Header,
    mut each: impl FnMut(usize, &Field),
) -> Result<(usize, usize), Refusal> {
    let mut place = header.end;
    let mut marks = 0;
    for number in 0..header.fields {
        let field = payload::judge(message, place)?;
        each(number, &field);
        marks += field.marks;
        place = field.end();
    }
    Ok((place, marks))
}

/// The length of the accepted message that the bytes begin with.
///
/// Where there is none, the refusal of reading the bytes, cut at the limit.
fn front(bytes: &[u8]) -> Result<usize, Refusal> {
    let bytes = &bytes[..bytes.len().min(MOST_BYTES)];
    let header = header::read(bytes)?;
    walk(bytes, &header, |_, _| ()).map(|(end, _)| end)
}

/// The header of a message that is accepted as a whole.
fn accepted(message: &[u8]) -> Result<Header, Refusal> {
    let header = begin(message)?;
    accept(message, &header, |_, _| ()).map(|_| header)
}

/// The fields of an accepted message.
fn fields<'a>(message: &'a [u8], header: &Header) -> impl Iterator<Item = Field> + 'a {
    let mut place = header.end;
    (0..header.fields).map_while(move |_| {
        let field = payload::judge(message, place).ok()?;
        place = field.end();
        Some(field)
    })
}

/// Judges the payload and shows each field, with its number, to `each`.
#[inline]
fn accept(
    message: &[u8],
    header: &Header,
    each: impl FnMut(usize, &Field),
) -> Result<Reading, Refusal> {
    let (place, marks) = walk(message, header, each)?;
    if place < message.len() {
        return Err(Refusal::new(13, place));
    }
    Ok(Reading {
        length: message.len() as u64,
        fields: header.fields as u64,
        steps: (8 + header.fields + marks) as u64,
        frames: header.frames,
    })
}

/// Field `k` of an accepted message.
fn find(message: &[u8], k: u64) -> Result<Field, Refusal> {
    let mut found = None;
    accept(message, &begin(message)?, |number, field| {
        if number as u64 == k {
            found = Some(*field);
        }
    })?;
    found.ok_or(Refusal::new(16, 0))
}

/// Judges the payload of at most `N` fields and then writes the table.
#[inline]
fn fill<const N: usize>(
    message: &[u8],
    header: &Header,
    table: &mut [u32],
) -> Result<Reading, Refusal> {
    let mut spans = [[0; 2]; N];
    let reading = accept(message, header, |number, field| spans[number % N] = field.span())?;
    let mut place = header.end;
    for (entry, &[first, end]) in table.chunks_exact_mut(PER_FIELD).zip(&spans[..header.fields]) {
        entry.copy_from_slice(&[
            u32::from(message[place]),
            place as u32,
            first,
            end - first,
            payload::marks(message, place),
            payload::values(message, place),
        ]);
        place = end as usize;
    }
    Ok(reading)
}

/// Judges the payload of at most `N` fields and then copies the message.
#[inline]
fn copy<const N: usize>(message: &[u8], header: &Header, out: &mut [u8]) -> Result<u64, Refusal> {
    let mut spans = [[0; 2]; N];
    accept(message, header, |number, field| spans[number % N] = field.span())?;
    let out = out.get_mut(..message.len()).ok_or(Refusal::new(14, 0))?;
    out[..header.end].copy_from_slice(&message[..header.end]);
    let mut copied = header.end;
    for &[first, end] in &spans[..header.fields] {
        let (first, end) = (first as usize, end as usize);
        payload::copy_head(&message[copied..first], &mut out[copied..first]);
        payload::clear(&mut out[first..end]);
        copied = end;
    }
    Ok(message.len() as u64)
}
