//! Recordings: messages end to end, with an index by which any one of them is had.

use std::fmt;
use std::iter::FusedIterator;
use std::slice::ChunksExact;

use crate::answers;
use crate::blanking;
use crate::refusal::Refusal;
use crate::MOST_MESSAGES;

/// The table's numbers for each message: the place of its first byte and its length.
const PLACE_NUMBERS: usize = 2;

/// An accepted recording: borrowed bytes, and where each message stands in them.
///
/// It copies no message. `Debug` shows how many there are and how long the recording is.
///
/// ```
/// # let s: &[u8] = b"\x09\0\0\0\x05SIM01\x09\0\0\0\x09IDVV.14.2\x09\0\0\0\x04MC.1\
/// #     \x09\0\0\0\x05MM1.4\x09\0\0\0\x06DSOL.3\x03\0\0\0\0\0\0\0\x7C\0\x02\x01\0\x01\
/// #     \x05\x3F\xC9\x99\x99\x99\x99\x99\x9A";
/// use sim0mq::{Recorder, Recording};
///
/// let mut recorder = Recorder::new();
/// recorder.add(s)?;
/// recorder.add(s)?;
/// let bytes = recorder.finish()?;
///
/// let recording = Recording::open(&bytes)?;
/// assert_eq!((recording.len(), recording.start(1)), (2, Some(77)));
/// assert_eq!(recording.get(1), Some(s));
/// for message in &recording {
///     assert_eq!(sim0mq::judge(message)?.fields(), 1);
/// }
/// # Ok::<(), sim0mq::Refusal>(())
/// ```
#[derive(Clone)]
pub struct Recording<'r> {
    bytes: &'r [u8],
    places: Box<[u32]>,
}

impl<'r> Recording<'r> {
    /// Opens a recording, and judges each message of it.
    ///
    /// # Errors
    ///
    /// 18 where its trailer or its index is wrong; then the refusal of the first message that is
    /// not accepted, its place counted from the recording's first byte.
    pub fn open(bytes: &'r [u8]) -> Result<Recording<'r>, Refusal> {
        // An entry of the index has more than one byte of the recording, so that there are never
        // more messages than bytes, and the table has room for all of them.
        let mut places = vec![0; MOST_MESSAGES.min(bytes.len()) * PLACE_NUMBERS];
        let messages = answers::recording_open_into(bytes, &mut places)?;
        places.truncate(messages * PLACE_NUMBERS);
        Ok(Recording { bytes, places: places.into() })
    }

    /// The bytes of the recording.
    #[must_use]
    pub const fn bytes(&self) -> &'r [u8] {
        self.bytes
    }

    /// The number of its messages, 0 to 4,096.
    #[must_use]
    pub const fn len(&self) -> usize {
        self.places.len() / PLACE_NUMBERS
    }

    /// Whether it has no message.
    #[must_use]
    pub const fn is_empty(&self) -> bool {
        self.len() == 0
    }

    /// The place of the first byte of message k, counted from 0, or `None` where there are not as
    /// many.
    #[must_use]
    pub fn start(&self, k: usize) -> Option<usize> {
        self.rows().nth(k).map(|place| place[0] as usize)
    }

    /// The bytes of message k, counted from 0, or `None` where there are not as many: the very
    /// part of the recording.
    #[must_use]
    pub fn get(&self, k: usize) -> Option<&'r [u8]> {
        self.iter().nth(k)
    }

    /// The bytes of each message, in their order.
    #[must_use]
    pub fn iter(&self) -> Messages<'_, 'r> {
        Messages { bytes: self.bytes, places: self.rows() }
    }

    /// The copy of the recording with zero in every value byte of every message. Index and trailer
    /// are the recording's, so it opens as the recording does.
    ///
    /// ```
    /// # let s: &[u8] = b"\x09\0\0\0\x05SIM01\x09\0\0\0\x09IDVV.14.2\x09\0\0\0\x04MC.1\
    /// #     \x09\0\0\0\x05MM1.4\x09\0\0\0\x06DSOL.3\x03\0\0\0\0\0\0\0\x7C\0\x02\x01\0\x01\
    /// #     \x05\x3F\xC9\x99\x99\x99\x99\x99\x9A";
    /// # use sim0mq::{Recorder, Recording};
    /// # let mut recorder = Recorder::new();
    /// # recorder.add(s)?;
    /// # let bytes = recorder.finish()?;
    /// let copy = Recording::open(&bytes)?.blanked();
    /// assert_eq!(Recording::open(&copy)?.get(0), Some(&sim0mq::blanked(s)?[..]));
    /// assert_eq!(copy[77..], bytes[77..]);
    /// # Ok::<(), sim0mq::Refusal>(())
    /// ```
    #[must_use]
    pub fn blanked(&self) -> Vec<u8> {
        let mut copy = self.bytes.to_vec();
        for place in self.rows() {
            let (message, blank) = (part(self.bytes, place), span(place));
            // Opening judged the message, and its copy has as many bytes.
            blanking::blank(message, &mut copy[blank]).expect("an accepted message is blanked");
        }
        copy
    }

    /// The place and the length of each message.
    fn rows(&self) -> ChunksExact<'_, u32> {
        self.places.chunks_exact(PLACE_NUMBERS)
    }
}

/// The places of the bytes of a message that stands at this place, of this length.
fn span(place: &[u32]) -> std::ops::Range<usize> {
    let start = place[0] as usize;
    start..start + place[1] as usize
}

/// The bytes of a message of the recording.
fn part<'r>(recording: &'r [u8], place: &[u32]) -> &'r [u8] {
    &recording[span(place)]
}

impl fmt::Debug for Recording<'_> {
    fn fmt(&self, f: &mut fmt::Formatter<'_>) -> fmt::Result {
        f.debug_struct("Recording")
            .field("length", &self.bytes.len())
            .field("messages", &self.len())
            .finish()
    }
}

impl<'i, 'r> IntoIterator for &'i Recording<'r> {
    type Item = &'r [u8];
    type IntoIter = Messages<'i, 'r>;

    fn into_iter(self) -> Messages<'i, 'r> {
        self.iter()
    }
}

/// The bytes of the messages of a recording in their order, from either end. `Debug` shows where
/// each stands and how long it is.
#[derive(Clone)]
pub struct Messages<'i, 'r> {
    bytes: &'r [u8],
    places: ChunksExact<'i, u32>,
}

impl<'r> Iterator for Messages<'_, 'r> {
    type Item = &'r [u8];

    fn next(&mut self) -> Option<&'r [u8]> {
        self.places.next().map(|place| part(self.bytes, place))
    }

    fn size_hint(&self) -> (usize, Option<usize>) {
        self.places.size_hint()
    }

    fn nth(&mut self, n: usize) -> Option<&'r [u8]> {
        self.places.nth(n).map(|place| part(self.bytes, place))
    }
}

impl<'r> DoubleEndedIterator for Messages<'_, 'r> {
    fn next_back(&mut self) -> Option<&'r [u8]> {
        self.places.next_back().map(|place| part(self.bytes, place))
    }
}

impl ExactSizeIterator for Messages<'_, '_> {}

impl FusedIterator for Messages<'_, '_> {}

impl fmt::Debug for Messages<'_, '_> {
    fn fmt(&self, f: &mut fmt::Formatter<'_>) -> fmt::Result {
        f.debug_list().entries(self.places.clone().map(span)).finish()
    }
}

/// The bytes of message k of a recording, counted from 0, where the other messages are not judged:
/// the very part of the recording. Each question judges the index afresh; [`Recording::open`] does
/// it once for all messages.
///
/// ```
/// # let s: &[u8] = b"\x09\0\0\0\x05SIM01\x09\0\0\0\x09IDVV.14.2\x09\0\0\0\x04MC.1\
/// #     \x09\0\0\0\x05MM1.4\x09\0\0\0\x06DSOL.3\x03\0\0\0\0\0\0\0\x7C\0\x02\x01\0\x01\
/// #     \x05\x3F\xC9\x99\x99\x99\x99\x99\x9A";
/// # use sim0mq::Recorder;
/// # let mut recorder = Recorder::new();
/// # recorder.add(s)?;
/// # let bytes = recorder.finish()?;
/// assert_eq!(sim0mq::message_of(&bytes, 0)?, s);
/// assert_eq!(sim0mq::message_of(&bytes, 1).unwrap_err().number(), 16);
/// assert_eq!(sim0mq::message_of(s, 0).unwrap_err().number(), 18);
/// # Ok::<(), sim0mq::Refusal>(())
/// ```
///
/// # Errors
///
/// 18 where the trailer or the index is wrong; 16 where there is no message k; then the message's
/// own refusal, its place counted from the recording's first byte.
pub fn message_of(recording: &[u8], k: usize) -> Result<&[u8], Refusal> {
    answers::recording_ask(recording, k as u64).map(|(start, len)| &recording[start..start + len])
}
