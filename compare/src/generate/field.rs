//! Payload fields and scalars.

use crate::peer::Value;
use crate::plain::CURRENCIES;
use crate::random::Random;

/// What is wrong with a generated field.
#[derive(Clone, Copy, Debug, PartialEq, Eq, PartialOrd, Ord)]
pub enum FieldFault {
    /// A code above 32.
    Code,
    /// A negative count.
    Negative,
    /// A count far larger than the bytes.
    Huge,
    /// An unknown unit type.
    Unit,
    /// A currency code outside its range.
    Currency,
    /// A display code outside its range.
    Display,
    /// A Boolean byte above 1.
    Boolean,
}

impl FieldFault {
    /// Every fault.
    pub const ALL: [FieldFault; 7] = [
        FieldFault::Code,
        FieldFault::Negative,
        FieldFault::Huge,
        FieldFault::Unit,
        FieldFault::Currency,
        FieldFault::Display,
        FieldFault::Boolean,
    ];

    /// A field code that can show the fault.
    fn code(self, random: &mut Random) -> u8 {
        match self {
            FieldFault::Code => match random.index(3) {
                0 => 33,
                1 => random.pick(&[34, 100, 128, 255]),
                _ => random.between(33, 255) as u8,
            },
            FieldFault::Negative | FieldFault::Huge => {
                let code = random.between(9, 30) as u8;
                if code >= 25 {
                    code + 2
                } else {
                    code
                }
            }
            FieldFault::Boolean => random.pick(&[6, 17, 24]),
            FieldFault::Unit | FieldFault::Currency | FieldFault::Display => {
                random.between(25, 32) as u8
            }
        }
    }
}

/// The last display codes of unit types 0 to 28.
const LAST: [u8; 29] = [
    0, 8, 1, 6, 3, 21, 1, 16, 7, 8, 8, 38, 1, 15, 6, 16, 21, 21, 21, 24, 15, 16, 13, 4, 4, 10, 15,
    3, 27,
];

/// Appends a field, with a fault if one is given.
pub fn field(random: &mut Random, fault: Option<FieldFault>, out: &mut Vec<u8>) {
    if fault == Some(FieldFault::Huge) && random.chance(30) {
        return wrapping_field(random, out);
    }
    let code = match fault {
        None => random.between(0, 32) as u8,
        Some(fault) => fault.code(random),
    };
    out.push(code);
    let (rows, columns) = match code {
        9..=17 | 27 | 28 => (small(random), 1),
        18..=24 | 29..=32 => (small(random), small(random)),
        _ => (1, 1),
    };
    // A fault among marks or Booleans needs one to be there.
    let least = u32::from(fault.is_some_and(|fault| fault > FieldFault::Huge));
    let (rows, columns) = (rows.max(least), columns.max(least));
    counts(random, fault, code, (rows, columns), out);
    let marks = match code {
        25..=30 => 1,
        31..=32 => columns,
        _ => 0,
    };
    marks_with_fault(random, fault, marks, out);
    values(random, code, (rows * columns) as usize, out);
    if fault == Some(FieldFault::Boolean) {
        let wrong = out.len() - 1 - random.index((rows * columns) as usize);
        out[wrong] = if random.chance(50) { 2 } else { random.between(2, 255) as u8 };
    }
}

/// Appends a scalar of this code, 0 to 8.
pub fn scalar_field(random: &mut Random, code: u8, out: &mut Vec<u8>) {
    out.push(code);
    values(random, code, 1, out);
}

/// Appends an array or a matrix that takes `size` bytes in all, which are at
/// least 32, or less where its width or its marks do not fill them.
pub fn sized_field(random: &mut Random, size: usize, out: &mut Vec<u8>) {
    if random.chance(15) {
        return wide_field(random, size, out);
    }
    let code = random.between(9, 24) as u8;
    out.push(code);
    let head = if code < 18 { 5 } else { 9 };
    let count = (size - head) / width(code);
    if code >= 18 {
        let across = random.chance(50);
        let (rows, columns) = if across { (1, count) } else { (count, 1) };
        out.extend((rows as u32).to_be_bytes());
        out.extend((columns as u32).to_be_bytes());
    } else {
        out.extend((count as u32).to_be_bytes());
    }
    values(random, code, count, out);
}

/// Appends a matrix with a mark for each of many columns, in at most `size` bytes.
fn wide_field(random: &mut Random, size: usize, out: &mut Vec<u8>) {
    let code = random.pick(&[31, 32]);
    let rows = random.index(3);
    let columns = (size - 9) / (4 + rows * width(code));
    out.push(code);
    out.extend((rows as u32).to_be_bytes());
    out.extend((columns as u32).to_be_bytes());
    marks_with_fault(random, None, columns as u32, out);
    values(random, code, rows * columns, out);
}

/// Appends a field whose size is that of its bytes in wrapping arithmetic only.
fn wrapping_field(random: &mut Random, out: &mut Vec<u8>) {
    // The products are 2^61 + 64, 2^32 + 1, 2^29 + 1 and 2^30 + 1.
    let (codes, counts, values): (&[u8], &[u32], usize) = match random.index(4) {
        0 => (&[21, 23, 30], &[1_473_194_118, 1_565_199_712], 64),
        1 => (&[18, 19, 20, 21, 22, 23, 24, 29, 30], &[641, 6_700_417], 1),
        2 => (&[14, 16, 28], &[0x2000_0001], 1),
        _ => (&[13, 15, 27], &[0x4000_0001], 1),
    };
    let code = random.pick(codes);
    out.push(code);
    out.extend(counts.iter().flat_map(|count| count.to_be_bytes()));
    if code >= 25 {
        sound_mark(random, out);
    }
    out.resize(out.len() + values * width(code), 1);
}

/// A scalar to add: mostly sound, at limits, a NaN, or with a wrong mark.
pub fn scalar(random: &mut Random) -> Value {
    let kind = match random.share(&[94, 3, 3]) {
        0 => random.index(11) as u8,
        1 => 11,
        _ => random.between(11, 255) as u8,
    };
    let bits = match width_of_kind(kind) {
        4 if matches!(kind, 4 | 9) => float_bits(random),
        8 if matches!(kind, 5 | 10) => double_bits(random),
        _ if kind == 6 => random.below(2),
        bytes => random.bits() & (u64::MAX >> (64 - 8 * bytes)),
    };
    let mut value = Value { kind, bits, ..Value::default() };
    if random.chance(4) {
        value.bits = beyond(random, kind);
    }
    if matches!(kind, 9 | 10) || random.chance(10) {
        mark_of(random, &mut value);
    }
    value
}

/// Bits at or past the limit of a kind's width.
fn beyond(random: &mut Random, kind: u8) -> u64 {
    let full = u64::MAX >> (64 - 8 * width_of_kind(kind));
    match random.index(4) {
        0 => full,
        1 => full.wrapping_add(1),
        2 => random.pick(&[2, 255, 256, 65_535, 65_536, u64::MAX, 1 << 32, 1 << 63]),
        _ => random.bits(),
    }
}

/// Gives a scalar a mark, sound or with one item wrong.
fn mark_of(random: &mut Random, value: &mut Value) {
    let unit = unit_type(random);
    sound_mark_of(random, unit, value);
    let last = last_of(unit);
    if random.chance(25) {
        match random.index(5) {
            0 => value.unit = unknown_unit(random),
            1 => value.currency = wrong_currency(random),
            2 => value.display = last + 1,
            3 => value.display = random.byte(),
            _ => value.currency = random.between(0, 1001) as u16,
        }
    }
}

/// Gives a scalar a sound mark of this unit type.
pub(super) fn sound_mark_of(random: &mut Random, unit: u8, value: &mut Value) {
    value.unit = unit;
    value.currency = if unit >= 100 { random.pick(&CURRENCIES) } else { 0 };
    value.display = random.between(0, last_of(unit).into()) as u8;
}

/// A count of a small field, now and then a longer one.
fn small(random: &mut Random) -> u32 {
    match random.share(&[20, 70, 9, 1]) {
        0 => 0,
        1 => random.between(1, 4) as u32,
        2 => random.between(5, 12) as u32,
        _ => random.between(13, 60) as u32,
    }
}

/// Appends the counts of a field, one of them wrong if the fault is there.
fn counts(
    random: &mut Random,
    fault: Option<FieldFault>,
    code: u8,
    (rows, columns): (u32, u32),
    out: &mut Vec<u8>,
) {
    let wrong = match fault {
        Some(FieldFault::Negative) => {
            Some(random.pick(&[0x8000_0000, u32::MAX, 0x8000_0001, 0xFFFF_0000]))
        }
        Some(FieldFault::Huge) => {
            Some(random.pick(&[0x7FFF_FFFF, 0x4000_0000, 0x2000_0000, 0x1_0000, 0x8000, 30_000]))
        }
        _ => None,
    };
    let mut numbers = match code {
        9..=17 | 27 | 28 => vec![rows],
        18..=24 | 29..=32 => vec![rows, columns],
        _ => vec![],
    };
    if let (Some(wrong), false) = (wrong, numbers.is_empty()) {
        let place = random.index(numbers.len());
        numbers[place] = wrong;
        if random.chance(40) {
            numbers.fill(wrong);
        }
    }
    out.extend(numbers.iter().flat_map(|number| number.to_be_bytes()));
}

/// Appends marks, one of them wrong if the fault is one of marks.
fn marks_with_fault(random: &mut Random, fault: Option<FieldFault>, marks: u32, out: &mut Vec<u8>) {
    if marks == 0 {
        return;
    }
    let wrong = random.below(marks.into()) as u32;
    for number in 0..marks {
        match fault {
            Some(fault) if number == wrong => wrong_mark(random, fault, out),
            _ => sound_mark(random, out),
        }
    }
}

/// Appends a sound mark.
fn sound_mark(random: &mut Random, out: &mut Vec<u8>) {
    let unit = unit_type(random);
    mark(random, unit, out);
}

/// Appends a sound mark of this unit type.
pub(super) fn mark(random: &mut Random, unit: u8, out: &mut Vec<u8>) {
    out.push(unit);
    if unit >= 100 {
        let limits = [8, 1000, 191, 784, 978];
        let inside = random.pick(&CURRENCIES);
        let currency = if random.chance(25) { random.pick(&limits) } else { inside };
        out.extend(currency.to_be_bytes());
    }
    if unit != 100 {
        let last = last_of(unit);
        let inside = random.between(0, last.into()) as u8;
        out.push(if random.chance(25) { last } else { inside });
    }
}

/// Appends a mark with this fault, a sound one where it has none.
fn wrong_mark(random: &mut Random, fault: FieldFault, out: &mut Vec<u8>) {
    match fault {
        FieldFault::Unit => out.extend([unknown_unit(random), random.byte()]),
        FieldFault::Currency => {
            let unit = random.between(100, 106) as u8;
            mark(random, unit, out);
            let place = out.len() - if unit == 100 { 2 } else { 3 };
            let [high, low] = wrong_currency(random).to_be_bytes();
            out[place] = high;
            out[place + 1] = low;
        }
        FieldFault::Display => {
            let plain = random.chance(60);
            let unit = if plain { random.below(29) } else { random.between(101, 106) } as u8;
            mark(random, unit, out);
            let place = out.len() - 1;
            let past = last_of(unit) + 1;
            out[place] =
                if random.chance(50) { past } else { random.between(past.into(), 255) as u8 };
        }
        _ => sound_mark(random, out),
    }
}

/// A unit type that is known.
pub(super) fn unit_type(random: &mut Random) -> u8 {
    match random.share(&[65, 10, 25]) {
        0 => random.index(29) as u8,
        1 => 100,
        _ => random.between(101, 106) as u8,
    }
}

/// A unit type that is not known.
fn unknown_unit(random: &mut Random) -> u8 {
    match random.index(4) {
        0 => random.pick(&[29, 99, 107, 128, 255]),
        1 => random.between(29, 99) as u8,
        _ => random.between(107, 255) as u8,
    }
}

/// A currency code outside its range.
fn wrong_currency(random: &mut Random) -> u16 {
    match random.index(4) {
        0 => 0,
        1 => random.pick(&[1, 3, 7, 9, 998, 1001, 1023, 1024, 0x7FFF, 0x8000, 0xFFFF, 0x8001]),
        2 => loop {
            let code = random.between(1, 1000) as u16;
            if !CURRENCIES.contains(&code) {
                break code;
            }
        },
        _ => random.between(1001, 0xFFFF) as u16,
    }
}

/// The last display code of a unit type; 0 for one that has none.
pub(super) fn last_of(unit: u8) -> u8 {
    match unit {
        0..=28 => LAST[usize::from(unit)],
        101..=106 => LAST[[5, 11, 16, 19, 25, 28][usize::from(unit - 101)]],
        _ => 0,
    }
}

/// Appends the values of a field code.
fn values(random: &mut Random, code: u8, count: usize, out: &mut Vec<u8>) {
    match code {
        6 | 17 | 24 => out.extend((0..count).map(|_| random.byte() & 1)),
        4 | 25 => out.extend((float_bits(random) as u32).to_be_bytes()),
        5 | 26 => out.extend(double_bits(random).to_be_bytes()),
        _ => random.bytes(count * width(code), out),
    }
}

/// The bits of a float, often a special one.
fn float_bits(random: &mut Random) -> u64 {
    const SPECIAL: [u32; 12] = [
        0,
        0x8000_0000,
        1,
        0x7F7F_FFFF,
        0x7F80_0000,
        0xFF80_0000,
        0x7F80_0001,
        0x7FBF_FFFF,
        0x7FC0_0000,
        0xFFC0_0000,
        0xFFFF_FFFF,
        0xFF80_0001,
    ];
    if random.chance(40) {
        random.pick(&SPECIAL).into()
    } else {
        random.bits() >> 32
    }
}

/// The bits of a double, often a special one.
pub(super) fn double_bits(random: &mut Random) -> u64 {
    const SPECIAL: [u64; 14] = [
        0,
        1 << 63,
        1,
        0x7FEF_FFFF_FFFF_FFFF,
        0x7FF0_0000_0000_0000,
        0xFFF0_0000_0000_0000,
        0x7FF0_0000_0000_0001,
        0x7FF0_0000_8000_0000,
        0x7FF0_0001_0000_0000,
        0x7FF8_0000_0000_0000,
        0xFFF8_0000_0000_0000,
        u64::MAX,
        0xFFF0_0000_0000_0001,
        0x7FF7_FFFF_FFFF_FFFF,
    ];
    if random.chance(40) {
        random.pick(&SPECIAL)
    } else {
        random.bits()
    }
}

/// Bytes per value of a field code.
fn width(code: u8) -> usize {
    match code {
        0 | 6 | 7 | 9 | 11 | 17 | 18 | 24 => 1,
        1 | 8 | 10 | 12 | 19 => 2,
        2 | 4 | 13 | 15 | 20 | 22 | 25 | 27 | 29 | 31 => 4,
        _ => 8,
    }
}

/// Bytes of a scalar of this kind.
fn width_of_kind(kind: u8) -> usize {
    match kind {
        9 => 4,
        10 => 8,
        kind => width(kind),
    }
}
