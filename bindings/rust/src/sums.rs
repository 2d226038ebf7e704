//! Sums and differences of quantities.

use crate::answers;
use crate::refusal::Refusal;
use crate::value::Value;

/// The sum of two quantities: doubles with a unit, of one of the pairs Length and Position,
/// Duration and Time, Angle and Direction, Temperature and AbsoluteTemperature. Two absolutes are
/// never added. The manual says which unit type and display code the sum has.
///
/// ```
/// use sim0mq::{sum, Mark, Value};
///
/// let position = |x| Value::DoubleUnit(x, Mark { unit: 17, currency: 0, display: 2 });
/// let length = Value::DoubleUnit(2.0, Mark { unit: 16, currency: 0, display: 0 });
/// assert_eq!(sum(length, position(1.5))?, position(3.5));
/// assert_eq!(sum(position(1.5), position(1.5)).unwrap_err().number(), 24);
/// # Ok::<(), sim0mq::Refusal>(())
/// ```
///
/// # Errors
///
/// 17 where one of the two is no double with a mark that a message can have; so is one that holds a
/// NaN, which asking answers as [`Value::NotNumber`]. Then 24 where the two cannot be added, and 25
/// where an operand or the sum is infinite.
pub fn sum(a: Value, b: Value) -> Result<Value, Refusal> {
    answers::sum(a.numbers(), b.numbers()).map(|answer| Value::answered(&answer))
}

/// The difference of two quantities, the second taken from the first: of two relatives, of two
/// absolutes of one pair, or of an absolute and a relative.
///
/// ```
/// use sim0mq::{difference, Mark, Value};
///
/// let position = |x| Value::DoubleUnit(x, Mark { unit: 17, currency: 0, display: 2 });
/// let length = Value::DoubleUnit(-2.0, Mark { unit: 16, currency: 0, display: 0 });
/// assert_eq!(difference(position(1.5), position(3.5))?, length);
/// assert_eq!(difference(length, position(1.5)).unwrap_err().number(), 24);
/// # Ok::<(), sim0mq::Refusal>(())
/// ```
///
/// # Errors
///
/// As in [`sum`].
pub fn difference(a: Value, b: Value) -> Result<Value, Refusal> {
    answers::difference(a.numbers(), b.numbers()).map(|answer| Value::answered(&answer))
}
