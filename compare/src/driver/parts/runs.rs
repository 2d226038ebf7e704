//! Runs of messages through the book and the ledger.

use super::super::pair::{hex, MOST_ANSWER};
use super::super::Difference;
use super::PartsDriver;
use crate::generate::{self, Run};
use crate::peer::senders;
use crate::random::Random;
use crate::subject::{FORGET, TAKE};
use crate::tally::Call;

impl PartsDriver<'_> {
    /// Takes messages into a book and removes senders from it.
    pub(super) fn senders(&mut self, random: &mut Random) -> Result<(), Difference> {
        let mut run = self.begin(random);
        for _ in 0..calls(random) {
            match random.share(&[85, 10, 5]) {
                0 => self.take(random, &mut run)?,
                1 => self.forget(random, &run)?,
                _ => self.forge_book(random),
            }
        }
        Ok(())
    }

    /// Musters messages.
    pub(super) fn ledger(&mut self, random: &mut Random) -> Result<(), Difference> {
        let mut run = self.begin(random);
        for _ in 0..calls(random) {
            match random.share(&[90, 3, 3, 4]) {
                0 => self.muster(random, &mut run)?,
                1 => self.forget(random, &run)?,
                2 => self.forge_book(random),
                _ => self.forge_ledger(random),
            }
        }
        Ok(())
    }

    /// Begins a run with an empty book and ledger, or forged ones.
    fn begin(&mut self, random: &mut Random) -> Run {
        self.pair.lend(random, 0, 0);
        for lent in [&mut self.pair.lent_one, &mut self.pair.lent_two] {
            lent.book = senders::empty();
            lent.ledger.fill(0);
        }
        if random.chance(10) {
            self.forge_book(random);
        }
        if random.chance(20) {
            self.forge_ledger(random);
        }
        Run::new(random)
    }

    /// Hands both a book that no call handed back.
    fn forge_book(&mut self, random: &mut Random) {
        generate::forge_book(random, &mut self.pair.lent_one.book);
        self.pair.lent_two.book = self.pair.lent_one.book;
    }

    /// Hands both a ledger that no call handed back.
    fn forge_ledger(&mut self, random: &mut Random) {
        generate::forge_ledger(random, &mut self.pair.lent_one.ledger);
        self.pair.lent_two.ledger = self.pair.lent_one.ledger;
    }

    /// Takes a message.
    fn take(&mut self, random: &mut Random, run: &mut Run) -> Result<(), Difference> {
        let mut message = std::mem::take(&mut self.message);
        run.message(random, &mut message.bytes);
        let bytes = &message.bytes;
        let book = self.pair.lent_one.book;
        let room = generate::answer_length(random, TAKE, MOST_ANSWER);
        let input = || format!("message {}\n{book:?}", hex(bytes));
        let said = self.pair.call(Call::Take, input, |subject, lent| {
            subject.take(&mut lent.book, bytes, &mut lent.answer[..room])
        });
        self.message = message;
        said.map(drop)
    }

    /// Removes a sender, mostly one of the run or one that is held.
    fn forget(&mut self, random: &mut Random, run: &Run) -> Result<(), Difference> {
        let book = self.pair.lent_one.book;
        let (mut code, mut id) = run.sender(random);
        if random.chance(50) {
            let entry = random.pick(&book);
            let size = usize::from(entry.size).min(entry.id.len());
            (code, id) = (entry.code, entry.id[..size].to_vec());
        }
        match random.share(&[92, 4, 4]) {
            1 => code = random.byte(),
            2 => id.push(0),
            _ => {}
        }
        let room = generate::answer_length(random, FORGET, MOST_ANSWER);
        let input = || format!("sender {code} {}\n{book:?}", hex(&id));
        let said = self.pair.call(Call::Forget, input, |subject, lent| {
            subject.forget(&mut lent.book, code, &id, &mut lent.answer[..room])
        });
        said.map(drop)
    }

    /// Musters a message.
    fn muster(&mut self, random: &mut Random, run: &mut Run) -> Result<(), Difference> {
        let mut message = std::mem::take(&mut self.message);
        run.muster(random, &mut message.bytes);
        let bytes = &message.bytes;
        let (book, ledger) = (self.pair.lent_one.book, self.pair.lent_one.ledger);
        let room = generate::answer_length(random, TAKE, MOST_ANSWER);
        let input = || format!("message {}\n{ledger:?}\n{book:?}", hex(bytes));
        let said = self.pair.call(Call::Muster, input, |subject, lent| {
            let answer = &mut lent.answer[..room];
            subject.muster(&mut lent.ledger, &mut lent.book, bytes, answer)
        });
        self.message = message;
        said.map(drop)
    }
}

/// How many calls a run has: mostly few, now and then enough to fill a book.
fn calls(random: &mut Random) -> u64 {
    match random.share(&[88, 12]) {
        0 => random.between(1, 12),
        _ => random.between(40, 90),
    }
}
