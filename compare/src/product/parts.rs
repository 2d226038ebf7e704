//! The parts of the library that are built on messages.

use super::{scalar, Product};
use crate::peer::ledger::Ledger;
use crate::peer::recordings::Recorder;
use crate::peer::senders::{Book, Entry};
use crate::peer::Value;
use crate::subject::{give, recorder_numbers, Parts};
use sim0mq::raw;

/// The number by which the peer knows each command, in the library's order, which is the manual's:
/// the peer has FM.1 to FM.9 first, then FS.1 to FS.5, then MC.1 to MC.4.
const COMMANDS: [u64; 18] = [1, 10, 15, 11, 2, 16, 3, 4, 5, 6, 17, 18, 7, 8, 9, 12, 13, 14];

/// A recorder's state, as the boundary takes it.
fn taken(state: Recorder) -> raw::RecorderState {
    let Recorder { written, messages, closed } = state;
    raw::RecorderState { written, messages, closed: u8::from(closed) }
}

/// The numbers of a place of the book.
const PLACE: usize = 8;
/// What stands after the book in the slice that is lent, and has to stay.
const BEYOND: u64 = 0x0123_4567_89AB_CDEF;

/// A book, as the boundary takes it, in a slice of one number more.
fn lent(book: &Book) -> [u64; raw::BOOK_NUMBERS + 1] {
    let mut numbers = [BEYOND; raw::BOOK_NUMBERS + 1];
    for (place, entry) in numbers.chunks_exact_mut(PLACE).zip(book) {
        let Entry { held, code, size, id, number } = *entry;
        place[..4].copy_from_slice(&[held.into(), number as u64, code.into(), size.into()]);
        for (word, bytes) in place[4..].iter_mut().zip(id.chunks_exact(8)) {
            *word = bytes.iter().fold(0, |word, &byte| word << 8 | u64::from(byte));
        }
    }
    numbers
}

/// The book that the boundary left.
fn left(numbers: &[u64]) -> Book {
    assert_eq!(numbers[raw::BOOK_NUMBERS], BEYOND, "a number after the book is written");
    std::array::from_fn(|place| {
        let place = &numbers[place * PLACE..][..PLACE];
        let small = |number: u64| u8::try_from(number).expect("a number that was lent as a byte");
        let mut id = [0; 32];
        for (bytes, word) in id.chunks_exact_mut(8).zip(&place[4..]) {
            bytes.copy_from_slice(&word.to_be_bytes());
        }
        assert!(place[0] < 2, "a place is held or free");
        let (held, number) = (place[0] == 1, place[1] as i64);
        Entry { held, code: small(place[2]), size: small(place[3]), id, number }
    })
}

/// Makes a call with the book's numbers, and takes them back.
fn with_book(book: &mut Book, call: impl FnOnce(&mut [u64]) -> u32) -> u32 {
    let mut numbers = lent(book);
    let returned = call(&mut numbers);
    *book = left(&numbers);
    returned
}

impl Parts for Product {
    fn name(&self) -> &'static str {
        "product"
    }

    fn open_recording(&self, recording: &[u8], answer: &mut [u64]) -> u32 {
        raw::recording_open(recording, answer)
    }

    fn open_into(&self, recording: &[u8], table: &mut [u32], answer: &mut [u64]) -> u32 {
        raw::recording_open_into(recording, table, answer)
    }

    fn ask_message(&self, recording: &[u8], k: u64, answer: &mut [u64]) -> u32 {
        raw::recording_ask(recording, k, answer)
    }

    /// The boundary has no call for it: its callers begin with the numbers of a new one.
    fn new_recorder(&self, answer: &mut [u64]) -> u32 {
        let raw::RecorderState { written, messages, closed } = raw::RecorderState::NEW;
        let state = Recorder { written, messages, closed: closed != 0 };
        give(answer, || recorder_numbers((Ok(0), state)))
    }

    fn record(&self, state: Recorder, message: &[u8], out: &mut [u8], answer: &mut [u64]) -> u32 {
        raw::recording_add(taken(state), message, out, answer)
    }

    fn close_recording(&self, state: Recorder, out: &mut [u8], answer: &mut [u64]) -> u32 {
        raw::recording_close(taken(state), out, answer)
    }

    fn salvage(&self, file: &[u8], out: &mut [u8], answer: &mut [u64]) -> u32 {
        raw::salvage(file, out, answer)
    }

    fn command(&self, message: &[u8], answer: &mut [u64]) -> u32 {
        let returned = raw::command(message, answer);
        if returned == 0 {
            answer[2] = COMMANDS[answer[2] as usize];
        }
        returned
    }

    fn sum(&self, one: Value, two: Value, answer: &mut [u64]) -> u32 {
        raw::sum(scalar(one), scalar(two), answer)
    }

    fn difference(&self, one: Value, two: Value, answer: &mut [u64]) -> u32 {
        raw::difference(scalar(one), scalar(two), answer)
    }

    fn take(&self, book: &mut Book, message: &[u8], answer: &mut [u64]) -> u32 {
        with_book(book, |book| raw::take(book, message, answer))
    }

    fn forget(&self, book: &mut Book, code: u8, id: &[u8], answer: &mut [u64]) -> u32 {
        with_book(book, |book| raw::close_sender(book, code.into(), id, answer))
    }

    fn muster(
        &self,
        ledger: &mut Ledger,
        book: &mut Book,
        message: &[u8],
        answer: &mut [u64],
    ) -> u32 {
        with_book(book, |book| raw::muster(ledger, book, message, answer))
    }

    fn reckon(&self, recording: &[u8], answer: &mut [u64]) -> u32 {
        raw::reckon(recording, answer)
    }
}
