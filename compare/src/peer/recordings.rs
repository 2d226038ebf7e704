//! Recordings: messages end to end, an index of them and a trailer.

use super::{front, read, Refusal, MOST_BYTES};

/// The most messages of a recording.
pub const MOST_MESSAGES: u64 = 4096;
/// The bytes of the trailer.
const TRAILER: usize = 10;
/// The edition that is written, and the bytes of its entries.
const WRITTEN: (u16, usize) = (2, 8);

/// Where a recording being written stands; any numbers may be handed in.
#[derive(Clone, Copy, Debug, PartialEq, Eq)]
pub struct Recorder {
    /// Bytes written so far.
    pub written: u64,
    /// Messages added so far.
    pub messages: u64,
    /// Whether nothing more can be added.
    pub closed: bool,
}

impl Recorder {
    /// The state in which nothing is written.
    pub const NEW: Recorder = Recorder { written: 0, messages: 0, closed: false };
}

/// Why salvage stopped.
#[derive(Clone, Copy, Debug, PartialEq, Eq)]
pub enum Stop {
    /// The bytes ended with a message.
    End,
    /// There were as many messages as a recording may have, and bytes left.
    Full,
    /// What followed was no message: its refusal, with its place in the file.
    Refused(Refusal),
}

/// What salvage reports.
#[derive(Clone, Copy, Debug, PartialEq, Eq)]
pub struct Salvaged {
    /// Bytes of the new recording.
    pub length: u64,
    /// Messages kept.
    pub kept: u64,
    /// Bytes of the file that are in no message kept.
    pub dropped: u64,
    /// Why it stopped.
    pub stop: Stop,
}

/// The index of a recording, whose entries tile the bytes before it.
pub(super) struct Index<'a> {
    entries: &'a [u8],
    width: usize,
    most: u64,
}

impl Index<'_> {
    /// The number of messages.
    pub fn messages(&self) -> u64 {
        (self.entries.len() / self.width) as u64
    }

    /// The start and the length of each message.
    pub fn spans(&self) -> impl Iterator<Item = (u64, u64)> + '_ {
        self.entries
            .chunks_exact(self.width)
            .map(|entry| (number(&entry[..4]), number(&entry[4..])))
    }

    /// Judges one message by itself; its refusal has its place in the recording.
    fn judge(&self, recording: &[u8], (start, length): (u64, u64)) -> Result<(), Refusal> {
        let within = |refusal: Refusal| Refusal { place: start + refusal.place, ..refusal };
        if length > self.most {
            return Err(within(Refusal::new(8, 0)));
        }
        read(message(recording, (start, length)), None).map(drop).map_err(within)
    }
}

/// The bytes of the message at this start, of this length.
pub(super) fn message(recording: &[u8], (start, length): (u64, u64)) -> &[u8] {
    &recording[start as usize..(start + length) as usize]
}

/// A big-endian number without a sign.
fn number(bytes: &[u8]) -> u64 {
    bytes.iter().fold(0, |number, &byte| number << 8 | u64::from(byte))
}

/// The index of a recording whose trailer and index are right.
fn index(recording: &[u8]) -> Option<Index<'_>> {
    let (before, trailer) = recording.split_at(recording.len().checked_sub(TRAILER)?);
    let (width, most) = match number(&trailer[8..]) {
        1 => (6, 32_768),
        2 => (8, MOST_BYTES as u64),
        _ => return None,
    };
    let (place, entries) = (number(&trailer[..4]), number(&trailer[4..8]));
    if entries > MOST_MESSAGES || place + entries * width != before.len() as u64 {
        return None;
    }
    let index = Index { entries: &before[place as usize..], width: width as usize, most };
    let mut end = 0;
    for (start, length) in index.spans() {
        if start != end {
            return None;
        }
        end += length;
    }
    (end == place).then_some(index)
}

/// Judges trailer and index, shows the index to `lend`, and judges each message.
pub(super) fn judged<'a>(
    recording: &'a [u8],
    lend: impl FnOnce(&Index) -> Result<(), Refusal>,
) -> Result<Index<'a>, Refusal> {
    let index = index(recording).ok_or(Refusal::new(18, 0))?;
    lend(&index)?;
    for span in index.spans() {
        index.judge(recording, span)?;
    }
    Ok(index)
}

/// Opens a recording and answers the number of its messages.
#[must_use = "the number of messages is the answer"]
pub fn open(recording: &[u8]) -> Result<u64, Refusal> {
    judged(recording, |_| Ok(())).map(|index| index.messages())
}

/// Opens a recording and puts start and length of each message in the table.
#[must_use = "a refused recording fills no table"]
pub fn open_into(recording: &[u8], table: &mut [u32]) -> Result<u64, Refusal> {
    let room = table.len() as u64;
    let index = judged(recording, |index| match room < 2 * index.messages() {
        true => Err(Refusal::new(14, 0)),
        false => Ok(()),
    })?;
    for (pair, (start, length)) in table.chunks_exact_mut(2).zip(index.spans()) {
        pair.copy_from_slice(&[start as u32, length as u32]);
    }
    Ok(index.messages())
}

/// The start and the length of message `k`, which alone is judged.
#[must_use = "the place is the answer"]
pub fn ask(recording: &[u8], k: u64) -> Result<(u64, u64), Refusal> {
    let index = index(recording).ok_or(Refusal::new(18, 0))?;
    let found = usize::try_from(k).ok().and_then(|k| index.spans().nth(k));
    let span = found.ok_or(Refusal::new(16, 0))?;
    index.judge(recording, span).map(|()| span)
}

/// Adds a message and answers the bytes written so far.
#[must_use = "the state is needed to go on"]
pub fn add(state: Recorder, message: &[u8], out: &mut [u8]) -> (Result<u64, Refusal>, Recorder) {
    let Recorder { written, messages, closed } = state;
    if closed || written > out.len() as u64 || messages >= MOST_MESSAGES {
        return (Err(Refusal::new(15, 0)), state);
    }
    if let Err(refusal) = read(message, None) {
        return (Err(refusal), state);
    }
    let Some(place) = out[written as usize..].get_mut(..message.len()) else {
        return (Err(Refusal::new(14, 0)), state);
    };
    place.copy_from_slice(message);
    let written = written + message.len() as u64;
    (Ok(written), Recorder { written, messages: messages + 1, closed })
}

/// Writes index and trailer and answers the recording's length.
#[must_use = "a refused closing leaves the recording open"]
pub fn close(state: Recorder, out: &mut [u8]) -> (Result<u64, Refusal>, Recorder) {
    let past = state.written > out.len() as u64;
    if state.closed || past || state.messages > MOST_MESSAGES {
        return (Err(Refusal::new(15, 0)), state);
    }
    let (kept, end, stop) = run(&out[..state.written as usize]);
    if stop != Stop::End || kept != state.messages {
        return (Err(Refusal::new(15, 0)), state);
    }
    if whole(kept, end) > out.len() {
        return (Err(Refusal::new(14, 0)), state);
    }
    let length = tail(kept, end, out);
    (Ok(length), Recorder { written: length, closed: true, ..state })
}

/// Keeps the messages from the front of a file and writes the recording of them.
#[must_use = "the report is the answer"]
pub fn salvage(file: &[u8], out: &mut [u8]) -> Result<Salvaged, Refusal> {
    let (kept, end, stop) = run(file);
    if whole(kept, end) > out.len() {
        return Err(Refusal::new(14, 0));
    }
    out[..end].copy_from_slice(&file[..end]);
    let length = tail(kept, end, out);
    Ok(Salvaged { length, kept, dropped: (file.len() - end) as u64, stop })
}

/// The messages from the front: how many, where they end, and why there.
fn run(file: &[u8]) -> (u64, usize, Stop) {
    let (mut kept, mut end) = (0, 0);
    loop {
        if end == file.len() {
            return (kept, end, Stop::End);
        }
        if kept == MOST_MESSAGES {
            return (kept, end, Stop::Full);
        }
        match front(&file[end..]) {
            Ok(length) => end += length,
            Err(refusal) => {
                let place = end as u64 + refusal.place;
                return (kept, end, Stop::Refused(Refusal { place, ..refusal }));
            }
        }
        kept += 1;
    }
}

/// The length of the recording of so many messages, which end at `end`.
fn whole(messages: u64, end: usize) -> usize {
    end + messages as usize * WRITTEN.1 + TRAILER
}

/// Writes index and trailer of so many messages, which end at `end`, after
/// them and answers the recording's length, for which there is room.
fn tail(messages: u64, end: usize, out: &mut [u8]) -> u64 {
    let (edition, width) = WRITTEN;
    let length = whole(messages, end);
    let (kept, rest) = out[..length].split_at_mut(end);
    let (entries, trailer) = rest.split_at_mut(messages as usize * width);
    let mut start = 0;
    for entry in entries.chunks_exact_mut(width) {
        let length = front(&kept[start..]).unwrap_or(0);
        entry[..4].copy_from_slice(&(start as u32).to_be_bytes());
        entry[4..].copy_from_slice(&(length as u32).to_be_bytes());
        start += length;
    }
    trailer[..4].copy_from_slice(&(end as u32).to_be_bytes());
    trailer[4..8].copy_from_slice(&(messages as u32).to_be_bytes());
    trailer[8..].copy_from_slice(&edition.to_be_bytes());
    length as u64
}
