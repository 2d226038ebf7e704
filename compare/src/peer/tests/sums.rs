use super::super::sums::{difference, sum};
use super::super::{Refusal, Value};

/// A double with this unit type and display code.
fn of(unit: u8, display: u8, value: f64) -> Value {
    Value { kind: 10, bits: value.to_bits(), unit, currency: 0, display }
}

const REFUSED_17: Result<Value, Refusal> = Err(Refusal::new(17, 0));
const REFUSED_24: Result<Value, Refusal> = Err(Refusal::new(24, 0));
const REFUSED_25: Result<Value, Refusal> = Err(Refusal::new(25, 0));

/// The relative and the absolute unit type of each pair.
const PAIRS: [(u8, u8); 4] = [(16, 17), (25, 26), (3, 4), (23, 24)];

#[test]
fn relative_and_absolute() {
    for (relative, absolute) in PAIRS {
        let (r, s) = (of(relative, 1, 5.0), of(relative, 2, 3.0));
        let (a, b) = (of(absolute, 2, 5.0), of(absolute, 3, 3.0));
        assert_eq!(sum(r, s), Ok(of(relative, 1, 8.0)));
        assert_eq!(difference(r, s), Ok(of(relative, 1, 2.0)));
        assert_eq!(sum(a, s), Ok(of(absolute, 2, 8.0)));
        assert_eq!(sum(r, b), Ok(of(absolute, 3, 8.0)));
        assert_eq!(difference(a, s), Ok(of(absolute, 2, 2.0)));
        assert_eq!(difference(a, b), Ok(of(relative, 0, 2.0)));
        assert_eq!(sum(a, b), REFUSED_24);
        assert_eq!(difference(r, b), REFUSED_24);
    }
}

#[test]
fn the_manuals_hours() {
    let hours = |unit, display, hours: f64| of(unit, display, hours * 3600.0);
    assert_eq!(sum(hours(26, 8, 5.0), hours(26, 8, 3.0)), REFUSED_24);
    assert_eq!(difference(hours(26, 8, 5.0), hours(26, 8, 3.0)), Ok(hours(25, 0, 2.0)));
    assert_eq!(sum(hours(26, 8, 17.0), hours(25, 7, 2.0)), Ok(hours(26, 8, 19.0)));
    assert_eq!(sum(hours(25, 7, 2.0), hours(25, 6, 0.5)), Ok(hours(25, 7, 2.5)));
}

#[test]
fn no_other_pair() {
    for one in (0..29).chain(100..107) {
        for two in (0..29).chain(100..107) {
            let mark = |unit| Value { currency: 978 * u16::from(unit >= 100), ..of(unit, 0, 1.0) };
            let same = PAIRS.iter().any(|&(r, a)| [r, a].contains(&one) && [r, a].contains(&two));
            if !same {
                assert_eq!(sum(mark(one), mark(two)), REFUSED_24);
                assert_eq!(difference(mark(one), mark(two)), REFUSED_24);
            }
        }
    }
}

#[test]
fn operands() {
    let length = of(16, 0, 1.0);
    let wrong = [
        Value { kind: 9, bits: 0x3F80_0000, ..length },
        Value { kind: 5, ..length },
        Value { kind: 11, bits: 26, ..Value::default() },
        Value { kind: 26, ..length },
        Value { display: 22, ..length },
        Value { currency: 978, ..length },
        Value { unit: 29, ..length },
        Value { unit: 100, currency: 3, ..length },
        Value { unit: 100, currency: 978, display: 1, ..length },
    ];
    for value in wrong {
        for ask in [sum, difference] {
            assert_eq!(ask(value, length), REFUSED_17);
            assert_eq!(ask(length, value), REFUSED_17);
        }
    }
}

#[test]
fn order_of_refusals() {
    let (position, length) = (of(17, 0, f64::INFINITY), of(16, 0, f64::NAN));
    assert_eq!(sum(position, position), REFUSED_24);
    assert_eq!(sum(position, Value { kind: 5, ..position }), REFUSED_17);
    assert_eq!(sum(position, of(25, 0, 1.0)), REFUSED_24);
    assert_eq!(sum(position, of(16, 0, 1.0)), REFUSED_25);
    assert_eq!(sum(length, of(16, 0, 1.0)), REFUSED_25);
    assert_eq!(difference(of(16, 0, 1.0), length), REFUSED_25);
    assert_eq!(difference(position, position), REFUSED_25);
    assert_eq!(sum(of(16, 0, f64::MAX), of(16, 0, f64::MAX)), REFUSED_25);
    assert_eq!(difference(of(16, 0, f64::MAX), of(16, 0, -f64::MAX)), REFUSED_25);
}

#[test]
fn rounded_once() {
    let add = |one: f64, two: f64| sum(of(16, 0, one), of(16, 0, two)).map(|sum| sum.bits);
    let half = 2f64.powi(-53);
    assert_eq!(add(1.0, half), Ok(1f64.to_bits()));
    assert_eq!(add(1.0, half * 1.5), Ok(1f64.to_bits() + 1));
    assert_eq!(add(1.0 + 2.0 * half, half), Ok(1f64.to_bits() + 2));
    assert_eq!(add(0.1, 0.2), Ok(0.3f64.to_bits() + 1));
    assert_eq!(add(f64::MAX, 2f64.powi(969)), Ok(f64::MAX.to_bits()));
    assert_eq!(add(0.0, -0.0), Ok(0));
    assert_eq!(add(-0.0, -0.0), Ok(1 << 63));
    assert_eq!(add(f64::from_bits(1), f64::from_bits(1)), Ok(2));
    assert_eq!(add(1.0, -1.0), Ok(0));
    assert!(sum(of(16, 0, f64::MAX), of(16, 0, 2f64.powi(970))).is_err());
}
