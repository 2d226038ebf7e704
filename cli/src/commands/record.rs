//! `sim0mq record`: a recording of messages.

use std::ffi::OsStr;
use std::io::Read;

use sim0mq::{judge, Recorder, Refusal, RefusalKind, MOST_BYTES};

use crate::args::{Given, Opt};
use crate::failure::Failure;
use crate::{files, progress};

/// How many bytes of a file are in memory beside the recording, at most.
const WINDOW: usize = 16 * MOST_BYTES;

/// Writes the recording of the messages of the files, in their order.
pub fn run(given: &Given) -> Result<(), Failure> {
    let output = given.output(Opt::Output);
    if output.path.is_none() {
        return Err(Failure::Use("record: -o is missing; see sim0mq record --help".to_string()));
    }
    output.ready()?;
    progress::stage("recording", "messages", 0);
    let mut recorder = Recorder::new();
    for name in given.operands() {
        add(&mut recorder, name)?;
    }
    let last = given.operands().last().map_or(String::new(), |name| files::shown(name));
    let recording = recorder.finish().map_err(|refusal| Failure::Refused(refusal, last))?;
    output.write(&recording)
}

/// Adds the messages of a file, which stand in it end to end.
fn add(recorder: &mut Recorder, name: &OsStr) -> Result<(), Failure> {
    let mut feed = Feed::open(name)?;
    while feed.more()? {
        let k = recorder.len();
        let length = front(feed.rest()).map_err(|refusal| feed.refused(refusal, k))?;
        recorder.add(&feed.rest()[..length]).map_err(|refusal| feed.refused(refusal, k))?;
        feed.passed += length;
        feed.at += length;
        progress::done(recorder.len());
    }
    Ok(())
}

/// A file of messages end to end, of which a part is in memory.
struct Feed<'n> {
    file: Box<dyn Read>,
    name: &'n OsStr,
    /// The part that is in memory, of which so many bytes are passed over.
    window: Vec<u8>,
    passed: usize,
    /// The place in the file of the next message.
    at: usize,
    ended: bool,
}

impl<'n> Feed<'n> {
    /// The file, of which nothing is read yet.
    fn open(name: &'n OsStr) -> Result<Feed<'n>, Failure> {
        let (file, window) = (files::open(name)?, Vec::new());
        Ok(Feed { file, name, window, passed: 0, at: 0, ended: false })
    }

    /// What is in memory from the next message on.
    fn rest(&self) -> &[u8] {
        &self.window[self.passed..]
    }

    /// Whether there is a next message. As much of it as a message may have is in memory then.
    fn more(&mut self) -> Result<bool, Failure> {
        if self.rest().len() < MOST_BYTES && !self.ended {
            self.fill()?;
        }
        Ok(!self.rest().is_empty())
    }

    /// Reads on until the window is full or the file has ended.
    fn fill(&mut self) -> Result<(), Failure> {
        self.window.drain(..self.passed);
        self.passed = 0;
        let room = (WINDOW - self.window.len()) as u64;
        let read = self.file.by_ref().take(room).read_to_end(&mut self.window);
        let read = read.map_err(|error| Failure::of(&files::shown(self.name), &error))?;
        self.ended = (read as u64) < room;
        Ok(())
    }

    /// The failure by which the next message is refused, with its place in the file; it would be
    /// message k of the recording.
    fn refused(&self, refusal: Refusal, k: usize) -> Failure {
        let place = match refusal.kind() {
            // a recording that is full has no place in the file
            RefusalKind::WriterState => 0,
            _ => self.at + refusal.place(),
        };
        let name = format!("{}, message {k}", files::shown(self.name));
        Failure::Refused(Refusal::new(refusal.kind(), place), name)
    }
}

/// The length of the message at the front of these bytes: reading them, cut where a message has to
/// end, finds all of it, or is refused for what follows, at the place where that begins.
fn front(bytes: &[u8]) -> Result<usize, Refusal> {
    match judge(&bytes[..bytes.len().min(MOST_BYTES)]) {
        Ok(summary) => Ok(summary.length()),
        Err(refusal) if refusal.kind() == RefusalKind::BytesLeft => Ok(refusal.place()),
        Err(refusal) => Err(refusal),
    }
}
