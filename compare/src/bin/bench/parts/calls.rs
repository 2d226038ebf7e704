//! Calls on one message or on two values: commands, musters and sums.

use super::{Books, Called, Work};
use compare::peer::{senders, Value};
use compare::product::Product;
use compare::samples::{muster, renumber};
use compare::subject::{Peer, COMMAND, TAKE, VALUE};
use sim0mq::raw;
use std::hint::black_box;

/// Asking which command a message is.
pub struct Commanding<'a> {
    message: &'a [u8],
    answer: [u64; COMMAND],
}

impl<'a> Commanding<'a> {
    pub fn of(message: &'a [u8]) -> Self {
        Commanding { message, answer: [0; COMMAND] }
    }
}

impl Work for Commanding<'_> {
    fn bytes(&self) -> usize {
        self.message.len()
    }

    #[inline(never)]
    fn run<S: Called>(&mut self, subject: &S, times: u64) -> u64 {
        for _ in 0..times {
            subject.which(black_box(self.message), black_box(&mut self.answer[..]));
            black_box(&self.answer);
        }
        self.answer[0]
    }
}

/// Mustering one who goes from deck 7 to deck 3 and back, each time with the next message number.
pub struct Mustering {
    messages: [Vec<u8>; 2],
    number: i64,
    books: Books,
    answer: [u64; TAKE],
}

impl Mustering {
    /// With so many senders in the book, of which the last one sends.
    pub fn of(senders: u8) -> Self {
        let (entries, numbers) = (senders::empty(), [0; raw::BOOK_NUMBERS]);
        let mut books = Books { ledger: [100; 16], entries, numbers };
        let mut answer = [0; TAKE];
        for sender in 0..senders {
            let message = muster(sender, &[0, 0]).bytes;
            Product.apply(&mut books, &message, &mut answer);
            Peer.apply(&mut books, &message, &mut answer);
        }
        let messages = [[3, 7], [7, 3]].map(|decks| muster(senders - 1, &decks).bytes);
        Mustering { messages, number: 1 << 32, books, answer }
    }
}

impl Work for Mustering {
    fn bytes(&self) -> usize {
        self.messages[0].len()
    }

    #[inline(never)]
    fn run<S: Called>(&mut self, subject: &S, times: u64) -> u64 {
        for _ in 0..times {
            self.number += 1;
            let message = &mut self.messages[(self.number & 1) as usize];
            renumber(message, self.number);
            subject.apply(&mut self.books, black_box(message), black_box(&mut self.answer[..]));
            black_box((&self.books.ledger, &self.answer));
        }
        self.answer[0]
    }
}

/// Adding a duration to a time.
pub struct Adding {
    time: Value,
    duration: Value,
    answer: [u64; VALUE],
}

impl Adding {
    pub fn of() -> Self {
        let double = |unit, number: f64| {
            let bits = number.to_bits();
            Value { kind: 10, bits, unit, currency: 0, display: 2 }
        };
        Adding { time: double(26, 86_400.0), duration: double(25, 0.25), answer: [0; VALUE] }
    }
}

impl Work for Adding {
    fn bytes(&self) -> usize {
        16
    }

    #[inline(never)]
    fn run<S: Called>(&mut self, subject: &S, times: u64) -> u64 {
        for _ in 0..times {
            let (time, duration) = black_box((self.time, self.duration));
            subject.sum(time, duration, black_box(&mut self.answer[..]));
            black_box(&self.answer);
        }
        self.answer[0]
    }
}
