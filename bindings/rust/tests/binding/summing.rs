//! Sums and differences.

use sim0mq::{difference, sum, Mark, Refusal, Value};

use crate::told;

/// The unit types of the pairs, a relative and the absolute beside it.
const PAIRS: [(u8, u8); 4] = [(3, 4), (16, 17), (23, 24), (25, 26)];

/// A double of this unit type and display code.
fn quantity(x: f64, unit: u8, display: u8) -> Value {
    Value::DoubleUnit(x, Mark { unit, currency: 0, display })
}

/// The refusal's number.
fn number(result: Result<Value, Refusal>) -> Result<Value, u8> {
    result.map_err(|refusal| {
        let (number, place) = told(refusal);
        assert_eq!(place, 0);
        number
    })
}

#[test]
fn each_pair_is_added() {
    for (relative, absolute) in PAIRS {
        let (r, a) = (quantity(1.5, relative, 1), quantity(4.0, absolute, 2));
        assert_eq!(number(sum(r, quantity(2.0, relative, 0))), Ok(quantity(3.5, relative, 1)));
        assert_eq!(number(sum(r, a)), Ok(quantity(5.5, absolute, 2)));
        assert_eq!(number(sum(a, r)), Ok(quantity(5.5, absolute, 2)));
        assert_eq!(number(sum(a, a)), Err(24));
    }
}

#[test]
fn each_pair_is_subtracted() {
    for (relative, absolute) in PAIRS {
        let (r, a) = (quantity(1.5, relative, 1), quantity(4.0, absolute, 2));
        assert_eq!(number(difference(r, r)), Ok(quantity(0.0, relative, 1)));
        assert_eq!(number(difference(a, r)), Ok(quantity(2.5, absolute, 2)));
        assert_eq!(
            number(difference(a, quantity(1.0, absolute, 1))),
            Ok(quantity(3.0, relative, 0))
        );
        assert_eq!(number(difference(r, a)), Err(24));
    }
}

#[test]
fn refusals_of_sums() {
    let length = quantity(1.0, 16, 0);
    let mark = Mark { unit: 16, currency: 0, display: 0 };
    let none = [
        Value::Byte(1),
        Value::Double(1.0),
        Value::FloatUnit(1.0, mark),
        Value::NotNumber(26),
        quantity(f64::NAN, 16, 0),
        quantity(1.0, 29, 0),
        quantity(1.0, 16, 22),
    ];
    for operand in none {
        assert_eq!(number(sum(operand, length)), Err(17), "{operand:?}");
        assert_eq!(number(difference(length, operand)), Err(17), "{operand:?}");
    }
    assert_eq!(number(sum(length, quantity(1.0, 25, 0))), Err(24));
    assert_eq!(number(sum(quantity(1.0, 22, 0), quantity(1.0, 22, 0))), Err(24));
    for infinite in [f64::INFINITY, f64::NEG_INFINITY] {
        assert_eq!(number(sum(length, quantity(infinite, 16, 0))), Err(25));
        assert_eq!(number(difference(quantity(infinite, 16, 0), length)), Err(25));
    }
    assert_eq!(number(sum(quantity(f64::MAX, 16, 0), quantity(f64::MAX, 17, 0))), Err(25));
    assert_eq!(number(difference(quantity(f64::MAX, 16, 0), quantity(f64::MIN, 16, 0))), Err(25));
}
