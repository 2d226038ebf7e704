//! Whether bytes are a message or a recording, as the library judges them.

use sim0mq::{judge, Recording, Refusal, RefusalKind};

/// What some bytes are.
pub enum Kind<'b> {
    /// An accepted message.
    Message,
    /// A recording that opens.
    Recording(Recording<'b>),
}

/// What the bytes are; never both, since no message is the beginning of a longer one. Where they
/// are neither, the refusal of a message in them if they have a recording's index and trailer, else
/// that of reading them as one message.
pub fn kind(bytes: &[u8]) -> Result<Kind<'_>, Refusal> {
    let Err(as_message) = judge(bytes) else {
        return Ok(Kind::Message);
    };
    match Recording::open(bytes) {
        Ok(recording) => Ok(Kind::Recording(recording)),
        Err(refusal) if refusal.kind() == RefusalKind::Tail => Err(as_message),
        Err(refusal) => Err(refusal),
    }
}
