//! The eight header frames.

use super::{Refusal, MOST_FIELDS};
use std::ops::RangeInclusive;

/// The bytes of frame 0 before its digits.
const MAGIC: [u8; 8] = *b"\x09\0\0\0\x05SIM";
/// Frame 0 as a whole.
pub(super) const FRAME_0: [u8; 10] = *b"\x09\0\0\0\x05SIM01";

/// An accepted header.
pub(super) struct Header {
    /// Place and type code of each frame.
    pub frames: [(u64, u8); 8],
    /// The declared number of payload fields.
    pub fields: usize,
    /// The place after the header.
    pub end: usize,
}

impl Header {
    /// The bytes of frame `k`, which is not the last.
    pub fn frame<'a>(&self, message: &'a [u8], k: usize) -> &'a [u8] {
        &message[self.frames[k].0 as usize..self.frames[k + 1].0 as usize]
    }

    /// The type code and the value bytes of id frame `k`, 1 to 4.
    pub fn id<'a>(&self, message: &'a [u8], k: usize) -> (u8, &'a [u8]) {
        let frame = self.frame(message, k);
        let first = if frame[0] < 9 { 1 } else { 5 };
        (frame[0], &frame[first..])
    }

    /// The status.
    pub fn status(&self, message: &[u8]) -> u8 {
        self.frame(message, 6)[1]
    }
}

/// Reads the header of a message.
#[inline]
pub(super) fn read(message: &[u8]) -> Result<Header, Refusal> {
    let mut frames = [(0, 9); 8];
    let mut place = magic(message)?;
    for frame in &mut frames[1..5] {
        let code = byte(message, place)?;
        *frame = (place as u64, code);
        place = id(message, place, code)?;
    }
    frames[5] = (place as u64, code(message, place, 3..=3)?);
    number::<8>(message, place + 1)?;
    place += 9;
    frames[6] = (place as u64, code(message, place, 0..=0)?);
    if !(1..=3).contains(&byte(message, place + 1)?) {
        return Err(Refusal::new(6, place + 1));
    }
    place += 2;
    frames[7] = (place as u64, code(message, place, 0..=2)?);
    let (fields, end) = count(message, place + 1, frames[7].1)?;
    Ok(Header { frames, fields, end })
}

/// Judges frame 0 byte by byte and answers the place after it.
#[inline]
fn magic(message: &[u8]) -> Result<usize, Refusal> {
    if message.starts_with(&FRAME_0) {
        return Ok(FRAME_0.len());
    }
    for (place, &wanted) in MAGIC.iter().enumerate() {
        if byte(message, place)? != wanted {
            return Err(Refusal::new(2, place));
        }
    }
    for place in [8, 9] {
        if !byte(message, place)?.is_ascii_digit() {
            return Err(Refusal::new(2, place));
        }
    }
    Err(Refusal::new(3, 8))
}

/// Judges the rest of an id frame and answers the place after it.
#[inline]
pub(super) fn id(bytes: &[u8], place: usize, code: u8) -> Result<usize, Refusal> {
    match code {
        1 => number::<2>(bytes, place + 1).map(|_| place + 3),
        2 => number::<4>(bytes, place + 1).map(|_| place + 5),
        9 | 10 => {
            let characters = i32::from_be_bytes(number(bytes, place + 1)?);
            let Ok(characters) = usize::try_from(characters) else {
                return Err(Refusal::new(5, place + 1));
            };
            let size = if code == 9 { characters } else { 2 * characters };
            if size > bytes.len() - (place + 5) {
                return Err(Refusal::ended(bytes));
            }
            Ok(place + 5 + size)
        }
        _ => Err(Refusal::new(4, place)),
    }
}

/// Judges the count of frame 7 and answers it with the place after it.
#[inline]
fn count(message: &[u8], place: usize, code: u8) -> Result<(usize, usize), Refusal> {
    let (count, end) = match code {
        0 => (i32::from(i8::from_be_bytes(number(message, place)?)), place + 1),
        1 => (i32::from(i16::from_be_bytes(number(message, place)?)), place + 2),
        _ => (i32::from_be_bytes(number(message, place)?), place + 4),
    };
    match usize::try_from(count) {
        Err(_) => Err(Refusal::new(5, place)),
        Ok(count) if count as u64 > MOST_FIELDS => Err(Refusal::new(7, place)),
        Ok(count) => Ok((count, end)),
    }
}

/// The type code at `place`, if it is an allowed one.
#[inline]
fn code(message: &[u8], place: usize, allowed: RangeInclusive<u8>) -> Result<u8, Refusal> {
    let code = byte(message, place)?;
    if allowed.contains(&code) {
        Ok(code)
    } else {
        Err(Refusal::new(4, place))
    }
}

/// The byte at `place`.
#[inline]
pub(super) fn byte(bytes: &[u8], place: usize) -> Result<u8, Refusal> {
    bytes.get(place).copied().ok_or(Refusal::ended(bytes))
}

/// The `N` bytes from `place`, all of them present.
#[inline]
pub(super) fn number<const N: usize>(bytes: &[u8], place: usize) -> Result<[u8; N], Refusal> {
    bytes.get(place..).and_then(|rest| rest.first_chunk()).copied().ok_or(Refusal::ended(bytes))
}
