//! Unit marks: a unit type, perhaps a currency, perhaps a display code.

use super::Refusal;

/// The currency codes, in the order of their numbers.
const CURRENCIES: [u16; 180] = [
    8, 12, 32, 36, 44, 48, 50, 51, 52, 60, 64, 68, 72, 84, 90, 96, 104, 108, 116, 124, 132, 136,
    144, 152, 156, 170, 174, 188, 191, 192, 203, 208, 214, 222, 230, 232, 238, 242, 262, 270, 292,
    320, 324, 328, 332, 340, 344, 348, 352, 356, 360, 364, 368, 376, 388, 392, 398, 400, 404, 408,
    410, 414, 417, 418, 422, 426, 430, 434, 446, 454, 458, 462, 478, 480, 484, 496, 498, 504, 512,
    516, 524, 532, 533, 548, 554, 558, 566, 578, 586, 590, 598, 600, 604, 608, 634, 643, 646, 654,
    678, 682, 690, 694, 702, 704, 706, 710, 728, 748, 752, 756, 760, 764, 776, 780, 784, 788, 800,
    807, 818, 826, 834, 840, 858, 860, 882, 886, 901, 931, 932, 933, 934, 936, 937, 938, 940, 941,
    943, 944, 946, 947, 948, 949, 950, 951, 952, 953, 955, 956, 957, 958, 959, 960, 961, 962, 963,
    964, 965, 967, 968, 969, 970, 971, 972, 973, 974, 975, 976, 977, 978, 979, 980, 981, 984, 985,
    986, 990, 994, 997, 999, 1000,
];

/// Whether each code to the greatest is a currency.
static TAKEN: [bool; 1001] = taken();

const fn taken() -> [bool; 1001] {
    let mut taken = [false; 1001];
    let mut place = 0;
    while place < CURRENCIES.len() {
        taken[CURRENCIES[place] as usize] = true;
        place += 1;
    }
    taken
}

/// Whether this is a currency code.
#[inline]
fn is_currency(code: u16) -> bool {
    TAKEN.get(usize::from(code)).is_some_and(|&taken| taken)
}

/// The last display code of unit types 0 to 28.
const LAST: [u8; 29] = [
    0, 8, 1, 6, 3, 21, 1, 16, 7, 8, 8, 38, 1, 15, 6, 16, 21, 21, 21, 24, 15, 16, 13, 4, 4, 10, 15,
    3, 27,
];
/// The unit types whose display codes follow the currency in types 101 to 106.
const PER: [u8; 6] = [5, 11, 16, 19, 25, 28];

/// What follows a unit type byte.
#[derive(Clone, Copy)]
enum Shape {
    /// One display byte up to this code.
    Plain(u8),
    /// A currency code.
    Money,
    /// A currency code and a display byte up to this code.
    Per(u8),
    /// Nothing: there is no such unit type.
    Unknown,
}

/// The shape of each unit type.
static SHAPES: [Shape; 256] = shapes();

const fn shapes() -> [Shape; 256] {
    let mut shapes = [Shape::Unknown; 256];
    let mut unit = 0;
    while unit < LAST.len() {
        shapes[unit] = Shape::Plain(LAST[unit]);
        unit += 1;
    }
    shapes[100] = Shape::Money;
    let mut money = 0;
    while money < PER.len() {
        shapes[101 + money] = Shape::Per(LAST[PER[money] as usize]);
        money += 1;
    }
    shapes
}

/// Judges the mark at `place` and answers the place after it.
#[inline]
pub(super) fn judge(bytes: &[u8], place: usize) -> Result<usize, Refusal> {
    let Some(&unit) = bytes.get(place) else {
        return Err(Refusal::ended(bytes));
    };
    match SHAPES[usize::from(unit)] {
        Shape::Plain(last) => display(bytes, place + 1, last),
        Shape::Money => currency(bytes, place + 1),
        Shape::Per(last) => display(bytes, currency(bytes, place + 1)?, last),
        Shape::Unknown => Err(Refusal::new(11, place)),
    }
}

/// Writes a mark to the start of `out` and answers its length.
///
/// Answers nothing for a mark that reading would refuse or never gives.
pub(super) fn encode(unit: u8, currency: u16, display: u8, out: &mut [u8]) -> Option<usize> {
    let money = is_currency(currency);
    let [high, low] = currency.to_be_bytes();
    match SHAPES[usize::from(unit)] {
        Shape::Plain(last) if display <= last && currency == 0 => {
            out[..2].copy_from_slice(&[unit, display]);
            Some(2)
        }
        Shape::Money if money && display == 0 => {
            out[..3].copy_from_slice(&[unit, high, low]);
            Some(3)
        }
        Shape::Per(last) if money && display <= last => {
            out[..4].copy_from_slice(&[unit, high, low, display]);
            Some(4)
        }
        _ => None,
    }
}

/// Judges a display byte and answers the place after it.
#[inline]
fn display(bytes: &[u8], place: usize, last: u8) -> Result<usize, Refusal> {
    match bytes.get(place) {
        None => Err(Refusal::ended(bytes)),
        Some(&code) if code > last => Err(Refusal::new(12, place)),
        Some(_) => Ok(place + 1),
    }
}

/// Judges a currency code and answers the place after it.
#[inline]
fn currency(bytes: &[u8], place: usize) -> Result<usize, Refusal> {
    let Some(&[high, low]) = bytes.get(place..place + 2) else {
        return Err(Refusal::ended(bytes));
    };
    if is_currency(u16::from_be_bytes([high, low])) {
        Ok(place + 2)
    } else {
        Err(Refusal::new(19, place))
    }
}
