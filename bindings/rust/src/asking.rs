//! Asking: the value of one field, or its value bytes. Each question reads the message afresh.

use crate::answers;
use crate::refusal::Refusal;
use crate::value::Value;

/// The value of field k, counted from 0, where it is a scalar.
///
/// ```
/// use sim0mq::Value;
/// # let s: &[u8] = b"\x09\0\0\0\x05SIM01\x09\0\0\0\x09IDVV.14.2\x09\0\0\0\x04MC.1\
/// #     \x09\0\0\0\x05MM1.4\x09\0\0\0\x06DSOL.3\x03\0\0\0\0\0\0\0\x7C\0\x02\x01\0\x01\
/// #     \x05\x3F\xC9\x99\x99\x99\x99\x99\x9A";
///
/// assert_eq!(sim0mq::value(s, 0)?, Value::Double(0.2));
/// assert_eq!(sim0mq::value(s, 1).unwrap_err().number(), 16);
/// # Ok::<(), sim0mq::Refusal>(())
/// ```
///
/// # Errors
///
/// The refusal of reading, by 1 to 13; then 16 where there is no field k, and 17 where it is no
/// scalar.
pub fn value(message: &[u8], k: usize) -> Result<Value, Refusal> {
    answers::value(message, k as u64).map(|answer| Value::answered(&answer))
}

/// The value bytes of field k, counted from 0: the very part of the message, for a field of any
/// code.
///
/// ```
/// # let s: &[u8] = b"\x09\0\0\0\x05SIM01\x09\0\0\0\x09IDVV.14.2\x09\0\0\0\x04MC.1\
/// #     \x09\0\0\0\x05MM1.4\x09\0\0\0\x06DSOL.3\x03\0\0\0\0\0\0\0\x7C\0\x02\x01\0\x01\
/// #     \x05\x3F\xC9\x99\x99\x99\x99\x99\x9A";
/// assert_eq!(sim0mq::view(s, 0)?, &s[69..77]);
/// # Ok::<(), sim0mq::Refusal>(())
/// ```
///
/// # Errors
///
/// The refusal of reading, by 1 to 13; then 16 where there is no field k.
pub fn view(message: &[u8], k: usize) -> Result<&[u8], Refusal> {
    answers::view(message, k as u64).map(|(first, len)| &message[first..first + len])
}
