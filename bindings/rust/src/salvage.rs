//! Salvage: the messages at the front of a file that was cut or damaged, as a recording.

use std::fmt;

use crate::answers;
use crate::raw::SALVAGE_NUMBERS;
use crate::recorder::tail_bytes;
use crate::refusal::Refusal;
use crate::{MOST_BYTES, MOST_MESSAGES};

/// Why salvage kept no more messages.
#[derive(Clone, Copy, Debug, PartialEq, Eq, Hash)]
pub enum Stop {
    /// The file ends with a message.
    AtEnd,
    /// 4,096 messages are kept, and bytes are left.
    AtMost,
    /// What follows the messages kept is none: its refusal, its place counted from the file's
    /// first byte.
    At(Refusal),
}

/// What salvage kept of a file, with its report. `Debug` shows the report, and no byte.
#[derive(Clone, PartialEq, Eq)]
pub struct Salvaged {
    recording: Vec<u8>,
    kept: usize,
    dropped: usize,
    stop: Stop,
}

impl Salvaged {
    /// The recording of the messages kept.
    #[must_use]
    pub fn recording(&self) -> &[u8] {
        &self.recording
    }

    /// The recording of the messages kept, to own.
    #[must_use]
    pub fn into_recording(self) -> Vec<u8> {
        self.recording
    }

    /// The number of messages kept, 0 to 4,096.
    #[must_use]
    pub const fn kept(&self) -> usize {
        self.kept
    }

    /// The number of bytes of the file that are in no message kept.
    #[must_use]
    pub const fn dropped(&self) -> usize {
        self.dropped
    }

    /// Why no more messages are kept.
    #[must_use]
    pub const fn stop(&self) -> Stop {
        self.stop
    }
}

impl fmt::Debug for Salvaged {
    fn fmt(&self, f: &mut fmt::Formatter<'_>) -> fmt::Result {
        f.debug_struct("Salvaged")
            .field("length", &self.recording.len())
            .field("kept", &self.kept)
            .field("dropped", &self.dropped)
            .field("stop", &self.stop)
            .finish()
    }
}

/// Keeps the longest run of accepted messages from the front of a file, up to 4,096, and writes
/// the recording of them. Any file has one; of a file that begins with no message it has none.
///
/// ```
/// # let s: &[u8] = b"\x09\0\0\0\x05SIM01\x09\0\0\0\x09IDVV.14.2\x09\0\0\0\x04MC.1\
/// #     \x09\0\0\0\x05MM1.4\x09\0\0\0\x06DSOL.3\x03\0\0\0\0\0\0\0\x7C\0\x02\x01\0\x01\
/// #     \x05\x3F\xC9\x99\x99\x99\x99\x99\x9A";
/// use sim0mq::{salvage, Recording, RefusalKind, Stop};
///
/// let file = s.repeat(3);
/// let salvaged = salvage(&file[..200]);
/// assert_eq!((salvaged.kept(), salvaged.dropped()), (2, 46));
/// match salvaged.stop() {
///     Stop::At(refusal) => {
///         assert_eq!((refusal.kind(), refusal.place()), (RefusalKind::EndsEarly, 200));
///     }
///     other => panic!("{other:?}"),
/// }
/// assert_eq!(Recording::open(salvaged.recording())?.get(1), Some(s));
/// # Ok::<(), sim0mq::Refusal>(())
/// ```
#[must_use]
pub fn salvage(file: &[u8]) -> Salvaged {
    // No more bytes are kept than so many of the longest messages have, and no more messages than
    // the file has bytes.
    let kept_bytes = file.len().min(MOST_MESSAGES * MOST_BYTES);
    let mut recording = vec![0; kept_bytes + tail_bytes(file.len())];
    let answer = answers::salvage(file, &mut recording).expect("there is room for what is kept");
    let [_, _, length, kept, dropped, ..] = answer;
    recording.truncate(length as usize);
    let (kept, dropped) = (kept as usize, dropped as usize);
    Salvaged { recording, kept, dropped, stop: stop(&answer) }
}

/// Why salvage stopped, as the numbers of its answer tell it.
fn stop(answer: &[u64; SALVAGE_NUMBERS]) -> Stop {
    let [.., kind, number, place] = *answer;
    match kind {
        0 => Stop::AtEnd,
        1 => Stop::AtMost,
        2 => Stop::At(Refusal::answered(number as u32, place)),
        _ => unreachable!("salvage stops in one of three ways"),
    }
}
