//! Writing a recording, message by message.

use std::fmt;

use crate::answers;
use crate::raw::RecorderState;
use crate::refusal::Refusal;
use crate::{MOST_BYTES, MOST_MESSAGES};

/// The bytes of an index's entry for a message, and of the trailer after the entries, in the
/// edition that is written.
pub(crate) const ENTRY_BYTES: usize = 8;
pub(crate) const TRAILER_BYTES: usize = 10;

/// A recording that is being written, in a buffer of its own that grows with it.
///
/// A refused message leaves it as it was. `Debug` shows how far the writing is, and no byte.
///
/// ```
/// # let s: &[u8] = b"\x09\0\0\0\x05SIM01\x09\0\0\0\x09IDVV.14.2\x09\0\0\0\x04MC.1\
/// #     \x09\0\0\0\x05MM1.4\x09\0\0\0\x06DSOL.3\x03\0\0\0\0\0\0\0\x7C\0\x02\x01\0\x01\
/// #     \x05\x3F\xC9\x99\x99\x99\x99\x99\x9A";
/// use sim0mq::{Recorder, Recording};
///
/// let mut recorder = Recorder::new();
/// recorder.add(s)?;
/// let cut = recorder.add(&s[..76]).unwrap_err();
/// assert_eq!((cut.number(), cut.place(), recorder.len()), (1, 76, 1));
///
/// let bytes = recorder.finish()?;
/// assert_eq!(Recording::open(&bytes)?.get(0), Some(s));
/// # Ok::<(), sim0mq::Refusal>(())
/// ```
#[must_use = "a recording is finished by its recorder"]
#[derive(Clone)]
pub struct Recorder {
    /// Exactly what is written.
    out: Vec<u8>,
    state: RecorderState,
}

impl Recorder {
    /// A recorder that has written nothing.
    pub const fn new() -> Recorder {
        Recorder { out: Vec::new(), state: RecorderState::NEW }
    }

    /// Adds a message after those before it.
    ///
    /// # Errors
    ///
    /// 15 where there are 4,096 messages already; then the refusal of reading the message, its
    /// place counted from the message's first byte. The recorder is then as it was.
    pub fn add(&mut self, message: &[u8]) -> Result<(), Refusal> {
        // Bytes above the most that a message has are refused for that, whatever the room.
        self.out.resize(self.written() + message.len().min(MOST_BYTES), 0);
        let added = answers::recording_add(self.state, message, &mut self.out);
        self.state = *added.as_ref().unwrap_or(&self.state);
        self.out.truncate(self.written());
        added.map(drop)
    }

    /// The number of messages added so far.
    #[must_use]
    pub const fn len(&self) -> usize {
        self.state.messages as usize
    }

    /// Whether no message is added yet.
    #[must_use]
    pub const fn is_empty(&self) -> bool {
        self.len() == 0
    }

    /// The number of bytes written so far, those of the messages.
    #[must_use]
    pub const fn written(&self) -> usize {
        self.state.written as usize
    }

    /// Closes the recording, and answers its bytes: the messages, their index and the trailer.
    ///
    /// # Errors
    ///
    /// None that is known: closing is refused by 15 for bytes that are not the messages that were
    /// added, and by 14 for a buffer without room for index and trailer, and here neither is so.
    pub fn finish(self) -> Result<Vec<u8>, Refusal> {
        let Recorder { mut out, state } = self;
        out.resize(out.len() + tail_bytes(state.messages as usize), 0);
        let length = answers::recording_close(state, &mut out)?;
        out.truncate(length);
        Ok(out)
    }
}

/// How many bytes the index and the trailer of this many messages have.
pub(crate) fn tail_bytes(messages: usize) -> usize {
    messages.min(MOST_MESSAGES) * ENTRY_BYTES + TRAILER_BYTES
}

impl Default for Recorder {
    fn default() -> Recorder {
        Recorder::new()
    }
}

impl fmt::Debug for Recorder {
    fn fmt(&self, f: &mut fmt::Formatter<'_>) -> fmt::Result {
        f.debug_struct("Recorder")
            .field("written", &self.written())
            .field("messages", &self.len())
            .finish()
    }
}
