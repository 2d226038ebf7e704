//! Sums of doubles in whole numbers.

use super::{encode, no, Judged};
use crate::peer::Value;

/// The finite double of these bits as a whole number and the power of two that
/// it is multiplied by, counted from that of the least double.
fn taken_apart(bits: u64) -> Option<(i128, u32)> {
    let exponent = (bits >> 52) as u32 & 0x7FF;
    let fraction = i128::from(bits & 0xF_FFFF_FFFF_FFFF);
    let (size, power) = match exponent {
        0x7FF => return None,
        0 => (fraction, 0),
        _ => (fraction + (1 << 52), exponent - 1),
    };
    Some((if bits >> 63 == 1 { -size } else { size }, power))
}

/// The bits of the double nearest to a whole number times a power of two, of
/// two the even one; nothing where it is too large.
fn nearest(number: i128, mut power: u32) -> Option<u64> {
    let sign = u64::from(number < 0) << 63;
    let mut size = number.unsigned_abs();
    while size != 0 && size < 1 << 52 && power > 0 {
        size *= 2;
        power -= 1;
    }
    let dropped = (128 - size.leading_zeros()).saturating_sub(53);
    let (kept, rest) = (size >> dropped, size & ((1 << dropped) - 1));
    let twice = 2 * rest;
    let up = twice > 1 << dropped || (twice == 1 << dropped && kept % 2 == 1);
    let (mut kept, mut power) = (kept + u128::from(up), power + dropped);
    if kept == 1 << 53 {
        (kept, power) = (1 << 52, power + 1);
    }
    if kept < 1 << 52 {
        return Some(sign | kept as u64);
    }
    (power + 1 < 0x7FF).then(|| sign | ((u64::from(power) << 52) + kept as u64))
}

/// The sum of two doubles, if they and it are finite.
fn added(one: u64, two: u64) -> Option<u64> {
    let (mut big, mut small) = (taken_apart(one)?, taken_apart(two)?);
    if big.1 < small.1 {
        (big, small) = (small, big);
    }
    let apart = big.1 - small.1;
    // What is further apart than this moves the sum by less than any half of a unit.
    let (number, power) = match apart {
        0..=64 => ((big.0 << apart) + small.0, small.1),
        _ => ((big.0 << 64) + small.0.signum(), big.1 - 64),
    };
    match number {
        0 => Some(if one == two { one } else { 0 }),
        _ => nearest(number, power),
    }
}

/// What a unit type measures, and whether it is absolute.
fn measure(unit: u8) -> Option<(&'static str, bool)> {
    Some(match unit {
        16 => ("length", false),
        17 => ("length", true),
        25 => ("time", false),
        26 => ("time", true),
        3 => ("angle", false),
        4 => ("angle", true),
        23 => ("temperature", false),
        24 => ("temperature", true),
        _ => return None,
    })
}

/// The sum of two scalars, or their difference.
pub(super) fn combined(one: Value, two: Value, less: bool) -> Judged<Value> {
    for value in [one, two] {
        // The mark is judged by encoding a double that is a number with it.
        if value.kind != 10 || encode(Value { bits: 0, ..value }).is_err() {
            return no(17, 0);
        }
    }
    let (Some(first), Some(second)) = (measure(one.unit), measure(two.unit)) else {
        return no(24, 0);
    };
    let absolutes = if less {
        i32::from(first.1) - i32::from(second.1)
    } else {
        i32::from(first.1) + i32::from(second.1)
    };
    if first.0 != second.0 || !(0..=1).contains(&absolutes) {
        return no(24, 0);
    }
    let absolute = absolutes == 1;
    let same =
        [one, two].into_iter().find(|value| measure(value.unit) == Some((first.0, absolute)));
    // The difference of two absolutes is of a unit type that neither has.
    let unit = same.map_or(one.unit - 1, |value| value.unit);
    let display = same.map_or(0, |value| value.display);
    let bits = if less { two.bits ^ (1 << 63) } else { two.bits };
    match added(one.bits, bits) {
        None => no(25, 0),
        Some(bits) => Ok(Value { kind: 10, bits, unit, currency: 0, display }),
    }
}
