//! Payload fields: a code byte, counts, unit marks and value bytes.

use super::header::number;
use super::{unit, Refusal};

/// A judged field.
#[derive(Clone, Copy, Debug)]
pub(super) struct Field {
    /// The field's code.
    pub code: u8,
    /// The place of the code byte.
    pub place: usize,
    /// The place of the first value byte, or where it would be.
    pub first: usize,
    /// The number of value bytes.
    pub size: usize,
    /// The number of marks.
    pub marks: usize,
}

impl Field {
    /// The place after the field.
    #[inline]
    pub fn end(&self) -> usize {
        self.first + self.size
    }

    /// Where the value bytes begin and end in a message.
    #[inline]
    pub fn span(&self) -> [u32; 2] {
        [self.first as u32, self.end() as u32]
    }
}

/// How many marks a field has.
#[derive(Clone, Copy, PartialEq)]
enum Marks {
    None,
    One,
    PerColumn,
}

/// What a field code says about its field.
#[derive(Clone, Copy)]
struct Shape {
    /// How many counts follow the code: none, elements, or rows and columns.
    counts: u8,
    marks: Marks,
    /// The bytes of a value as a power of two.
    width: u8,
    boolean: bool,
}

/// The shape of each field code.
static SHAPES: [Shape; 33] = shapes();

const fn shapes() -> [Shape; 33] {
    const BASIC: [u8; 9] = [0, 1, 2, 3, 2, 3, 0, 0, 1];
    let mut shapes = [Shape { counts: 0, marks: Marks::None, width: 0, boolean: false }; 33];
    let mut code = 0;
    while code < 33 {
        let (counts, marks, width) = match code {
            0..=8 => (0, Marks::None, BASIC[code]),
            9..=10 => (1, Marks::None, code as u8 - 9),
            11..=17 => (1, Marks::None, BASIC[code - 11]),
            18..=24 => (2, Marks::None, BASIC[code - 18]),
            25..=26 => (0, Marks::One, code as u8 - 23),
            27..=28 => (1, Marks::One, code as u8 - 25),
            29..=30 => (2, Marks::One, code as u8 - 27),
            _ => (2, Marks::PerColumn, code as u8 - 29),
        };
        let boolean = matches!(code, 6 | 17 | 24);
        shapes[code] = Shape { counts, marks, width, boolean };
        code += 1;
    }
    shapes
}

/// Judges the field at `place`.
#[inline]
pub(super) fn judge(bytes: &[u8], place: usize) -> Result<Field, Refusal> {
    let Some(&code) = bytes.get(place) else {
        return Err(Refusal::ended(bytes));
    };
    match code {
        0 | 7 => return single::<1>(bytes, code, place),
        1 | 8 => return single::<2>(bytes, code, place),
        2 | 4 => return single::<4>(bytes, code, place),
        3 | 5 => return single::<8>(bytes, code, place),
        _ => {}
    }
    let Some(&shape) = SHAPES.get(usize::from(code)) else {
        return Err(Refusal::new(9, place));
    };
    let (values, columns, mut first) = match shape.counts {
        0 => (1, 0, place + 1),
        1 => (count(bytes, place + 1)?, 0, place + 5),
        _ => {
            let rows = count(bytes, place + 1)?;
            let columns = count(bytes, place + 5)?;
            (rows * columns, columns, place + 9)
        }
    };
    let mut marks = 0;
    if shape.marks != Marks::None {
        let wanted = if shape.marks == Marks::One { 1 } else { columns };
        for _ in 0..wanted {
            first = unit::judge(bytes, first)?;
        }
        marks = wanted as usize;
    }
    if values > (bytes.len() - first) as u64 >> shape.width {
        return Err(Refusal::ended(bytes));
    }
    let size = (values as usize) << shape.width;
    if shape.boolean {
        booleans(bytes, first, size)?;
    }
    Ok(Field { code, place, first, size, marks })
}

/// Judges the field at `place` that is one value of `N` bytes of any content.
#[inline]
fn single<const N: usize>(bytes: &[u8], code: u8, place: usize) -> Result<Field, Refusal> {
    number::<N>(bytes, place + 1)?;
    Ok(Field { code, place, first: place + 1, size: N, marks: 0 })
}

/// The number of marks of the accepted field at `place`.
#[inline]
pub(super) fn marks(bytes: &[u8], place: usize) -> u32 {
    match bytes[place] {
        0..=24 => 0,
        25..=30 => 1,
        _ => number(bytes, place + 5).map_or(0, u32::from_be_bytes),
    }
}

/// The number of values of the accepted field at `place`, as its counts say it.
#[inline]
pub(super) fn values(bytes: &[u8], place: usize) -> u32 {
    let count = |at| number(bytes, at).map_or(0, u32::from_be_bytes);
    match bytes[place] {
        0..=8 | 25..=26 => 1,
        9..=17 | 27..=28 => count(place + 1),
        // All values are there, so that the product is no greater than the message.
        _ => count(place + 1) * count(place + 5),
    }
}

/// Copies the code, counts and marks of a field.
#[inline]
pub(super) fn copy_head(head: &[u8], out: &mut [u8]) {
    match *head {
        [code] => out[0] = code,
        [code, unit, display] => out.copy_from_slice(&[code, unit, display]),
        _ => out.copy_from_slice(head),
    }
}

/// Zeroes value bytes.
#[inline]
pub(super) fn clear(values: &mut [u8]) {
    match values {
        [one] => *one = 0,
        _ => values.fill(0),
    }
}

/// Judges the count at `place` and answers it.
#[inline]
fn count(bytes: &[u8], place: usize) -> Result<u64, Refusal> {
    let count = i32::from_be_bytes(number(bytes, place)?);
    u64::try_from(count).map_err(|_| Refusal::new(5, place))
}

/// Judges Boolean bytes in order.
#[inline]
fn booleans(bytes: &[u8], first: usize, size: usize) -> Result<(), Refusal> {
    let values = &bytes[first..first + size];
    if values.iter().fold(0, |seen, &byte| seen | byte) <= 1 {
        return Ok(());
    }
    let wrong = values.iter().take_while(|&&byte| byte <= 1).count();
    Err(Refusal::new(10, first + wrong))
}
