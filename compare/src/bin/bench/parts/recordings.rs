//! Calls on recordings whose messages are all of one length.

use super::{Called, Work};
use compare::peer::recordings::{Recorder, MOST_MESSAGES};
use compare::product::Product;
use compare::subject::{Subject, MESSAGE, READ, RECKON, RECORD, RECORDING, SALVAGE};
use std::hint::black_box;
use std::ptr;
use std::slice::ChunksExact;

/// The messages in some bytes, and what is lent where the library reads each of them.
struct Messages<'a> {
    bytes: &'a [u8],
    length: usize,
    answer: [u64; READ],
}

impl<'a> Messages<'a> {
    /// The first so many messages of this length.
    fn of(recording: &'a [u8], length: usize, many: usize) -> Self {
        Messages { bytes: &recording[..many * length], length, answer: [0; READ] }
    }

    /// Each message.
    fn each(&self) -> ChunksExact<'a, u8> {
        self.bytes.chunks_exact(self.length)
    }

    /// Has the library read each of them so many times.
    #[inline(never)]
    fn read(&mut self, times: u64) {
        for _ in 0..times {
            for message in self.each() {
                Product.judge(black_box(message), black_box(&mut self.answer[..]));
                black_box(&self.answer);
            }
        }
    }
}

/// All messages that a recording may have.
const ALL: usize = MOST_MESSAGES as usize;

/// Opening a recording without a table.
pub struct Opening<'a> {
    recording: &'a [u8],
    messages: Messages<'a>,
    answer: [u64; RECORDING],
}

impl<'a> Opening<'a> {
    pub fn of(recording: &'a [u8], length: usize) -> Self {
        let messages = Messages::of(recording, length, ALL);
        Opening { recording, messages, answer: [0; RECORDING] }
    }
}

impl Work for Opening<'_> {
    const MANY: usize = 3;

    fn bytes(&self) -> usize {
        self.recording.len()
    }

    #[inline(never)]
    fn run<S: Called>(&mut self, subject: &S, times: u64) -> u64 {
        for _ in 0..times {
            subject.open_recording(black_box(self.recording), black_box(&mut self.answer[..]));
            black_box(&self.answer);
        }
        self.answer[0]
    }

    fn read(&mut self, times: u64) {
        self.messages.read(times);
    }
}

/// Opening a recording with a table.
pub struct OpeningInto<'a> {
    opening: Opening<'a>,
    table: Vec<u32>,
}

impl<'a> OpeningInto<'a> {
    pub fn of(recording: &'a [u8], length: usize) -> Self {
        OpeningInto { opening: Opening::of(recording, length), table: vec![0; 2 * ALL] }
    }
}

impl Work for OpeningInto<'_> {
    const MANY: usize = 3;

    fn bytes(&self) -> usize {
        self.opening.bytes()
    }

    #[inline(never)]
    fn run<S: Called>(&mut self, subject: &S, times: u64) -> u64 {
        let Opening { recording, answer, .. } = &mut self.opening;
        for _ in 0..times {
            subject.open_into(black_box(recording), &mut self.table, black_box(&mut answer[..]));
            black_box((&self.table, &answer));
        }
        answer[0]
    }

    fn read(&mut self, times: u64) {
        self.opening.read(times);
    }
}

/// Asking where one message stands.
pub struct Asking<'a> {
    recording: &'a [u8],
    k: u64,
    answer: [u64; MESSAGE],
}

impl<'a> Asking<'a> {
    pub fn of(recording: &'a [u8], k: u64) -> Self {
        Asking { recording, k, answer: [0; MESSAGE] }
    }
}

impl Work for Asking<'_> {
    fn bytes(&self) -> usize {
        self.recording.len()
    }

    #[inline(never)]
    fn run<S: Called>(&mut self, subject: &S, times: u64) -> u64 {
        for _ in 0..times {
            let (recording, k) = black_box((self.recording, self.k));
            subject.ask_message(recording, k, black_box(&mut self.answer[..]));
            black_box(&self.answer);
        }
        self.answer[0]
    }
}

/// Recording each message of a recording, and closing.
pub struct Recording<'a> {
    messages: Messages<'a>,
    out: Vec<u8>,
    answer: [u64; RECORD],
}

impl<'a> Recording<'a> {
    pub fn of(recording: &'a [u8], length: usize) -> Self {
        let messages = Messages::of(recording, length, ALL);
        Recording { messages, out: vec![0; recording.len()], answer: [0; RECORD] }
    }
}

/// The state in an answer, taken number by number, as a caller in C takes it.
#[inline(always)]
fn state(answer: &[u64]) -> Recorder {
    // SAFETY: a reference to a number is a place to read one from.
    let number = |place: usize| unsafe { ptr::read_volatile(&answer[place]) };
    Recorder { written: number(3), messages: number(4), closed: number(5) != 0 }
}

impl Work for Recording<'_> {
    const MANY: usize = 4;

    fn bytes(&self) -> usize {
        self.out.len()
    }

    #[inline(never)]
    fn run<S: Called>(&mut self, subject: &S, times: u64) -> u64 {
        for _ in 0..times {
            let answer = black_box(&mut self.answer[..]);
            answer.fill(0);
            for message in self.messages.each() {
                subject.record(state(answer), black_box(message), &mut self.out, answer);
            }
            subject.close_recording(state(answer), &mut self.out, answer);
            black_box((&self.out, &self.answer));
        }
        self.answer[0]
    }

    fn read(&mut self, times: u64) {
        self.messages.read(times);
    }

    fn copy(&mut self, times: u64) {
        copy(self.messages.bytes, &mut self.out, times);
    }
}

/// Salvaging a file that ends in the middle of its last message.
pub struct Salvaging<'a> {
    file: &'a [u8],
    messages: Messages<'a>,
    out: Vec<u8>,
    answer: [u64; SALVAGE],
}

impl<'a> Salvaging<'a> {
    pub fn of(recording: &'a [u8], length: usize) -> Self {
        let file = &recording[..ALL * length - length / 2];
        let messages = Messages::of(recording, length, ALL - 1);
        Salvaging { file, messages, out: vec![0; recording.len()], answer: [0; SALVAGE] }
    }
}

impl Work for Salvaging<'_> {
    const MANY: usize = 4;

    fn bytes(&self) -> usize {
        self.file.len()
    }

    #[inline(never)]
    fn run<S: Called>(&mut self, subject: &S, times: u64) -> u64 {
        for _ in 0..times {
            let answer = black_box(&mut self.answer[..]);
            subject.salvage(black_box(self.file), &mut self.out, answer);
            black_box((&self.out, &self.answer));
        }
        self.answer[0]
    }

    fn read(&mut self, times: u64) {
        self.messages.read(times);
    }

    fn copy(&mut self, times: u64) {
        copy(self.file, &mut self.out, times);
    }
}

/// Copies bytes to the front of a buffer so many times.
#[inline(never)]
fn copy(bytes: &[u8], out: &mut [u8], times: u64) {
    for _ in 0..times {
        out[..bytes.len()].copy_from_slice(black_box(bytes));
        black_box(&out);
    }
}

/// Mustering each message of a recording.
pub struct Reckoning<'a> {
    recording: &'a [u8],
    answer: [u64; RECKON],
}

impl<'a> Reckoning<'a> {
    pub fn of(recording: &'a [u8]) -> Self {
        Reckoning { recording, answer: [0; RECKON] }
    }
}

impl Work for Reckoning<'_> {
    fn bytes(&self) -> usize {
        self.recording.len()
    }

    #[inline(never)]
    fn run<S: Called>(&mut self, subject: &S, times: u64) -> u64 {
        for _ in 0..times {
            subject.reckon(black_box(self.recording), black_box(&mut self.answer[..]));
            black_box(&self.answer);
        }
        self.answer[0]
    }
}
