//! Sums and differences of doubles with units.

use super::scalar::Value;
use super::{unit, Refusal};

/// The kind of a double with a mark.
const DOUBLE: u8 = 10;
/// The unit types of each relative quantity and the absolute one beside it:
/// angles, lengths, temperatures and times.
const PAIRS: [(u8, u8); 4] = [(3, 4), (16, 17), (23, 24), (25, 26)];

/// Adds two scalars.
#[must_use = "the sum is the answer"]
pub fn sum(one: Value, two: Value) -> Result<Value, Refusal> {
    let (pair, absolute) = operands(one, two)?;
    let (unit, display) = match absolute {
        [false, false] => (pair.0, one.display),
        [true, false] => (pair.1, one.display),
        [false, true] => (pair.1, two.display),
        [true, true] => return Err(Refusal::new(24, 0)),
    };
    result(one, two, unit, display, |one, two| one + two)
}

/// Takes the second scalar from the first.
#[must_use = "the difference is the answer"]
pub fn difference(one: Value, two: Value) -> Result<Value, Refusal> {
    let (pair, absolute) = operands(one, two)?;
    let (unit, display) = match absolute {
        [false, false] => (pair.0, one.display),
        [true, false] => (pair.1, one.display),
        [true, true] => (pair.0, 0),
        [false, true] => return Err(Refusal::new(24, 0)),
    };
    result(one, two, unit, display, |one, two| one - two)
}

/// The pair that both operands are of, and which of them are absolute.
fn operands(one: Value, two: Value) -> Result<((u8, u8), [bool; 2]), Refusal> {
    for Value { kind, unit, currency, display, .. } in [one, two] {
        if kind != DOUBLE || unit::encode(unit, currency, display, &mut [0; 4]).is_none() {
            return Err(Refusal::new(17, 0));
        }
    }
    let of = |pair: &(u8, u8), value: Value| value.unit == pair.0 || value.unit == pair.1;
    let found = PAIRS.into_iter().find(|pair| of(pair, one) && of(pair, two));
    let pair = found.ok_or(Refusal::new(24, 0))?;
    Ok((pair, [one.unit == pair.1, two.unit == pair.1]))
}

/// What `combine` makes of two finite operands, with this mark, if it is finite.
fn result(
    one: Value,
    two: Value,
    unit: u8,
    display: u8,
    combine: impl FnOnce(f64, f64) -> f64,
) -> Result<Value, Refusal> {
    let (one, two) = (f64::from_bits(one.bits), f64::from_bits(two.bits));
    let combined = combine(one, two);
    if !(one.is_finite() && two.is_finite() && combined.is_finite()) {
        return Err(Refusal::new(25, 0));
    }
    Ok(Value { kind: DOUBLE, bits: combined.to_bits(), unit, currency: 0, display })
}
