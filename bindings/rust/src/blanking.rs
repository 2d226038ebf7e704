//! Blanking: the copy of a message that tells how it is built and none of its values.

use crate::answers;
use crate::refusal::Refusal;
use crate::MOST_BYTES;

/// Copies a message to the front of `out` with zero in every value byte of its fields, and answers
/// the length of the copy, which is the message's. The rest of `out` stays.
///
/// ```
/// # let s: &[u8] = b"\x09\0\0\0\x05SIM01\x09\0\0\0\x09IDVV.14.2\x09\0\0\0\x04MC.1\
/// #     \x09\0\0\0\x05MM1.4\x09\0\0\0\x06DSOL.3\x03\0\0\0\0\0\0\0\x7C\0\x02\x01\0\x01\
/// #     \x05\x3F\xC9\x99\x99\x99\x99\x99\x9A";
/// let mut out = [7; 100];
/// let length = sim0mq::blank(s, &mut out)?;
/// assert_eq!(out[..length], [&s[..69], &[0; 8]].concat());
/// assert_eq!(out[length..], [7; 23]);
/// # Ok::<(), sim0mq::Refusal>(())
/// ```
///
/// # Errors
///
/// The refusal of reading, by 1 to 13; then 14 where `out` is shorter than the message. `out` is
/// then as it was.
pub fn blank(message: &[u8], out: &mut [u8]) -> Result<usize, Refusal> {
    answers::blank(message, out)
}

/// The blanked copy of a message.
///
/// ```
/// # let s: &[u8] = b"\x09\0\0\0\x05SIM01\x09\0\0\0\x09IDVV.14.2\x09\0\0\0\x04MC.1\
/// #     \x09\0\0\0\x05MM1.4\x09\0\0\0\x06DSOL.3\x03\0\0\0\0\0\0\0\x7C\0\x02\x01\0\x01\
/// #     \x05\x3F\xC9\x99\x99\x99\x99\x99\x9A";
/// assert_eq!(sim0mq::blanked(s)?, [&s[..69], &[0; 8]].concat());
/// # Ok::<(), sim0mq::Refusal>(())
/// ```
///
/// # Errors
///
/// The refusal of reading, by 1 to 13.
pub fn blanked(message: &[u8]) -> Result<Vec<u8>, Refusal> {
    // Bytes above the most that a message has are refused for that, whatever the room.
    let mut copy = vec![0; message.len().min(MOST_BYTES)];
    let length = blank(message, &mut copy)?;
    copy.truncate(length);
    Ok(copy)
}
