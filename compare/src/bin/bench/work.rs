//! What is timed: the calls on one message, each a loop that is compiled for each subject. What a call is
//! lent goes through [`black_box`], so that none is compiled for the lengths of these buffers.

use crate::measure::{measure, Rounds};
use crate::placed::Placed;
use compare::c_peer::CPeer;
use compare::peer::State;
use compare::product::Product;
use compare::samples::{Sample, IDS};
use compare::subject::{Opening, Peer, Subject, BLANK, READ, VALUE, WRITE};
use std::hint::black_box;
use std::ptr;

/// Who is timed; `memcpy` comes last, as not all calls have it beside them.
#[derive(Clone, Copy, Debug, PartialEq, Eq)]
pub enum Who {
    Library,
    Rust,
    C,
    Memcpy,
}

impl From<Who> for usize {
    fn from(who: Who) -> usize {
        who as usize
    }
}

/// All that are timed, in the order of [`Who`].
pub const ALL: [Who; 4] = [Who::Library, Who::Rust, Who::C, Who::Memcpy];

/// Times the calls; without `memcpy` where it is not worth it.
pub fn measured<W: Work>(mut work: W) -> Rounds {
    let many = if W::COPIES { 4 } else { 3 };
    measure(&ALL[..many], |who, times| match who {
        Who::Library => work.run(&Product, times),
        Who::Rust => work.run(&Peer, times),
        Who::C => work.run(&CPeer, times),
        Who::Memcpy => work.copy(times),
    })
}

/// Calls on one message, with the buffers that are lent to them.
pub trait Work {
    /// What the calls are called in the table.
    const NAME: &'static str;
    /// Whether copying the message is worth timing beside them.
    const COPIES: bool;
    /// Makes the calls so many times.
    fn run<S: Subject>(&mut self, subject: &S, times: u64);
    /// Copies the message so many times.
    fn copy(&mut self, _times: u64) {}
}

/// Reading with a table.
pub struct Reading {
    message: Placed,
    table: Vec<u32>,
    answer: [u64; READ],
}

impl Reading {
    pub fn of(sample: &Sample) -> Self {
        Reading { message: Placed::message(&sample.bytes), table: vec![0; 1536], answer: [0; READ] }
    }
}

impl Work for Reading {
    const NAME: &'static str = "read";
    const COPIES: bool = false;

    #[inline(never)]
    fn run<S: Subject>(&mut self, subject: &S, times: u64) {
        let message = self.message.bytes();
        for _ in 0..times {
            let answer = black_box(&mut self.answer[..]);
            subject.read(black_box(message), &mut self.table, answer);
            black_box((&self.table, &self.answer));
        }
    }
}

/// Blanking.
pub struct Blanking {
    message: Placed,
    out: Placed,
    answer: [u64; BLANK],
}

impl Blanking {
    pub fn of(Sample { bytes, .. }: &Sample) -> Self {
        let (message, out) = (Placed::message(bytes), Placed::output(bytes.len()));
        Blanking { message, out, answer: [0; BLANK] }
    }
}

impl Work for Blanking {
    const NAME: &'static str = "blank";
    const COPIES: bool = true;

    #[inline(never)]
    fn run<S: Subject>(&mut self, subject: &S, times: u64) {
        let (message, out) = (self.message.bytes(), self.out.bytes_mut());
        for _ in 0..times {
            let answer = black_box(&mut self.answer[..]);
            subject.blank(black_box(message), out, answer);
            black_box((&*out, &self.answer));
        }
    }

    #[inline(never)]
    fn copy(&mut self, times: u64) {
        let (message, out) = (self.message.bytes(), self.out.bytes_mut());
        for _ in 0..times {
            out.copy_from_slice(black_box(message));
            black_box(&*out);
        }
    }
}

/// Opening, adding every encoded field and closing.
pub struct Writing<'a> {
    opening: Opening<'a>,
    fields: &'a [Vec<u8>],
    out: Placed,
    answer: [u64; WRITE],
}

impl<'a> Writing<'a> {
    pub fn of(sample: &'a Sample) -> Self {
        let Sample { bytes, fields, .. } = sample;
        let (ids, count) = (&bytes[IDS], fields.len() as u64);
        let opening = Opening { ids, number: 124, status: 2, fields: count, kind: Some(1) };
        Writing { opening, fields, out: Placed::output(bytes.len()), answer: [0; WRITE] }
    }
}

/// The state in an answer, taken number by number, as a caller in C takes it. Two of them loaded at once
/// would have to wait until both, stored one by one, had reached memory.
#[inline(always)]
fn state(answer: &[u64]) -> State {
    // SAFETY: a reference to a number is a place to read one from.
    let number = |place: usize| unsafe { ptr::read_volatile(&answer[place]) };
    State { written: number(3), declared: number(4), added: number(5), closed: number(6) != 0 }
}

impl Work for Writing<'_> {
    const NAME: &'static str = "write";
    const COPIES: bool = false;

    #[inline(never)]
    fn run<S: Subject>(&mut self, subject: &S, times: u64) {
        let out = self.out.bytes_mut();
        for _ in 0..times {
            let answer = black_box(&mut self.answer[..]);
            subject.open(black_box(&self.opening), out, answer);
            for field in self.fields {
                subject.add(state(answer), black_box(field), out, answer);
            }
            subject.close(state(answer), answer);
            black_box((&*out, &self.answer));
        }
    }
}

/// Asking the value of the last field.
pub struct Asking {
    message: Placed,
    last: u64,
    answer: [u64; VALUE],
}

impl Asking {
    pub fn of(sample: &Sample) -> Self {
        let last = sample.fields.len() as u64 - 1;
        Asking { message: Placed::message(&sample.bytes), last, answer: [0; VALUE] }
    }
}

impl Work for Asking {
    const NAME: &'static str = "ask the last of";
    const COPIES: bool = false;

    #[inline(never)]
    fn run<S: Subject>(&mut self, subject: &S, times: u64) {
        let bytes = self.message.bytes();
        for _ in 0..times {
            let (message, k) = black_box((bytes, self.last));
            subject.value(message, k, black_box(&mut self.answer[..]));
            black_box(&self.answer);
        }
    }
}
