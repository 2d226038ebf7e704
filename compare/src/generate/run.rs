//! Runs of messages for the book and the ledger, and what a caller may forge.

use super::message::{damage, message, Message};
use crate::peer::ledger::Ledger;
use crate::peer::senders::{Book, Entry};
use crate::random::Random;

/// A run of messages from a few senders, whose numbers mostly grow.
#[derive(Clone, Debug)]
pub struct Run {
    /// How many senders there are.
    pool: u64,
    /// The greatest number that was sent in turn.
    last: i64,
    /// How many decks are mustered.
    decks: u64,
}

impl Run {
    /// The beginning of a run.
    pub fn new(random: &mut Random) -> Self {
        let pool = random.pick(&[1, 2, 5, 31, 33, 60]);
        let last = random.pick(&[0, 0, -20, 124, i64::MIN, i64::MAX - 40]);
        Run { pool, last, decks: random.pick(&[1, 2, 4, 16]) }
    }

    /// A message number: the next, one that was there, a negative or an extreme one.
    fn number(&mut self, random: &mut Random) -> i64 {
        match random.share(&[60, 20, 12, 4, 4]) {
            0 => {
                self.last = self.last.saturating_add(random.between(1, 3) as i64);
                self.last
            }
            1 => self.last.saturating_sub(random.below(4) as i64),
            2 => random.between(0, 12) as i64 - 6,
            3 => random.pick(&[i64::MIN, i64::MIN + 1, -1, 0, i64::MAX - 1, i64::MAX]),
            _ => random.bits() as i64,
        }
    }

    /// The type code and value bytes of a sender.
    ///
    /// Some have equal bytes and another code, some a length at its limit.
    pub fn sender(&self, random: &mut Random) -> (u8, Vec<u8>) {
        match random.share(&[86, 5, 4, 5]) {
            0 => {
                let number = random.below(self.pool);
                let (code, width) = code_of(number);
                let mut id = vec![0; width];
                id[width - 1] = (number / 4) as u8;
                (code, id)
            }
            1 => (random.pick(&[9, 10]), vec![random.byte() & 1; 32]),
            2 => (random.pick(&[9, 10]), Vec::new()),
            _ => match random.chance(50) {
                true => (9, vec![7; random.between(33, 40) as usize]),
                false => (10, vec![7; 2 * random.between(17, 200) as usize]),
            },
        }
    }

    /// Makes a message for the book.
    pub fn message(&mut self, random: &mut Random, out: &mut Vec<u8>) {
        let fields = random.index(3);
        let (kind, deck) = (random.pick(&[1, 2, 3]), random.byte());
        self.make(random, &text(b"MUS.1"), kind, &[[0, deck], [7, 1]][..fields], out);
        if random.chance(3) {
            any(random, out);
        }
    }

    /// Makes a muster, right or wrong.
    pub fn muster(&mut self, random: &mut Random, out: &mut Vec<u8>) {
        let status = random.pick(&[1, 1, 1, 2, 2, 3]);
        let right = if status == 2 { 2 } else { 1 };
        let mut fields = vec![[0; 2]; right];
        for field in &mut fields {
            field[1] = random.below(self.decks) as u8;
            match random.share(&[90, 3, 3, 4]) {
                1 => field[0] = random.pick(&[6, 7]),
                2 => field[1] = random.pick(&[15, 16, 17, 127, 128, 255]),
                3 => field[1] = random.byte(),
                _ => {}
            }
            // A Boolean byte above 1 would be reading's to refuse.
            field[1] &= if field[0] == 6 { 1 } else { 255 };
        }
        match random.share(&[94, 3, 3]) {
            1 => drop(fields.pop()),
            2 => fields.push([0, 1]),
            _ => {}
        }
        let type_id = if random.chance(96) { text(b"MUS.1") } else { wrong_type(random) };
        self.make(random, &type_id, status, &fields, out);
        if random.chance(2) {
            any(random, out);
        }
    }

    /// Makes a message of this run.
    fn make(
        &mut self,
        random: &mut Random,
        type_id: &[u8],
        status: u8,
        fields: &[[u8; 2]],
        out: &mut Vec<u8>,
    ) {
        out.clear();
        let (code, id) = self.sender(random);
        let mut sender = vec![code];
        match code {
            9 => sender.extend((id.len() as u32).to_be_bytes()),
            10 => sender.extend((id.len() as u32 / 2).to_be_bytes()),
            _ => {}
        }
        sender.extend(id);
        let number = self.number(random);
        let ids = [&[1, 0, 1][..], &sender, &[9, 0, 0, 0, 0], type_id];
        header(random, ids, number, status, fields.len(), out);
        out.extend(fields.concat());
    }
}

/// The code and the number of value bytes of a sender of the pool.
fn code_of(number: u64) -> (u8, usize) {
    [(1, 2), (2, 4), (9, 2), (10, 2)][(number % 4) as usize]
}

/// A type id that is not that of a muster.
fn wrong_type(random: &mut Random) -> Vec<u8> {
    match random.index(4) {
        0 => text(random.pick(&[&b"MUS.2"[..], b"MUS.", b"MUS.10", b"mus.1", b"", b"FM.1\0"])),
        1 => b"\x0a\0\0\0\x05\0M\0U\0S\0.\x001".to_vec(),
        2 => vec![1, 0, 1],
        _ => vec![2, b'M', b'U', b'S', b'1'],
    }
}

/// Damages a message, or makes one of any sort.
fn any(random: &mut Random, out: &mut Vec<u8>) {
    if random.chance(60) {
        return damage(random, out);
    }
    let mut made = Message::default();
    message(random, &mut made);
    *out = made.bytes;
}

/// An encoded 8-bit string.
pub(super) fn text(characters: &[u8]) -> Vec<u8> {
    [&[9][..], &(characters.len() as u32).to_be_bytes(), characters].concat()
}

/// Appends a header of these encoded ids, with a count of any type.
pub(super) fn header(
    random: &mut Random,
    ids: [&[u8]; 4],
    number: i64,
    status: u8,
    fields: usize,
    out: &mut Vec<u8>,
) {
    out.extend(b"\x09\0\0\0\x05SIM01");
    out.extend(ids.concat());
    out.push(3);
    out.extend(number.to_be_bytes());
    let kind = if fields > 127 { 1 } else { random.index(3) };
    out.extend([0, status, kind as u8]);
    out.extend(&(fields as u32).to_be_bytes()[4 - (1 << kind)..]);
}

/// Changes a book to one that no call handed back.
pub fn forge_book(random: &mut Random, book: &mut Book) {
    match random.share(&[15, 10, 75]) {
        0 => book.iter_mut().for_each(|entry| entry.held = true),
        1 => *book = [Entry::default(); 32],
        _ => {
            for _ in 0..random.between(1, 6) {
                forge_entry(random, book);
            }
        }
    }
}

/// Changes one place of a book.
fn forge_entry(random: &mut Random, book: &mut Book) {
    let from = book[random.index(4)];
    let entry = &mut book[random.index(32)];
    match random.index(7) {
        0 => entry.held = !entry.held,
        1 => entry.code = random.pick(&[0, 1, 2, 9, 10, 255]),
        2 => entry.size = random.pick(&[0, 1, 2, 4, 31, 32, 33, 34, 64, 255]),
        3 => {
            let place = random.index(32);
            entry.id[place] = random.byte() & 3;
        }
        4 => entry.number = random.pick(&[i64::MIN, -1, 0, 5, 130, i64::MAX]),
        5 => *entry = from,
        _ => *entry = Entry { held: random.chance(50), id: [7; 32], ..from },
    }
}

/// Changes a ledger to one that no call handed back.
pub fn forge_ledger(random: &mut Random, ledger: &mut Ledger) {
    for _ in 0..random.between(1, 8) {
        let deck = random.index(16).min(random.index(16));
        ledger[deck] = match random.index(4) {
            0 => 0,
            1 => random.pick(&[1, 2, 255, 256]),
            2 => random.pick(&[u16::MAX, u16::MAX, u16::MAX - 1, 0x7FFF, 0x8000]),
            _ => random.bits() as u16,
        };
    }
}
