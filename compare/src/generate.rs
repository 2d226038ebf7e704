//! Seeded inputs: messages sound and damaged, tables, rooms, questions and
//! everything a writing session takes; recordings, commands, operands of sums,
//! and runs of messages for the book and the ledger.

mod command;
mod field;
mod message;
mod operands;
mod recording;
mod run;

pub use command::command;
pub use field::{field, scalar, sized_field, FieldFault};
pub use message::{header_ids, message, sound_message, Message};
pub use operands::operands;
pub use recording::{forged_recorder, recorded_message, recording, Recording};
pub use run::{forge_book, forge_ledger, Run};

use crate::peer::State;
use crate::random::Random;

/// The longest buffer any case of messages uses.
pub const MOST_ROOM: usize = 73_000;

/// The length of a lent table for a message that declares `fields` fields.
pub fn table_length(random: &mut Random, fields: u64) -> usize {
    let exact = 6 * fields.min(300) as usize;
    match random.share(&[50, 10, 15, 5, 10, 10]) {
        0 => exact,
        1 => exact.saturating_sub(1),
        2 => exact + random.index(12),
        3 => 0,
        4 => random.index(exact + 2),
        _ => exact.max(1536) + random.index(10),
    }
}

/// The length of a lent table for a recording of so many messages.
pub fn messages_table(random: &mut Random, messages: u64) -> usize {
    let exact = 2 * messages as usize;
    match random.share(&[55, 10, 20, 5, 10]) {
        0 => exact,
        1 => exact.saturating_sub(1),
        2 => exact + random.index(9),
        3 => 0,
        _ => random.index(exact + 2),
    }
}

/// The number of a field or message to ask for, mostly one that is there.
pub fn asked(random: &mut Random, fields: u64) -> u64 {
    match random.share(&[70, 8, 8, 4, 4, 6]) {
        0 if fields > 0 => random.below(fields),
        0 | 1 => fields,
        2 => fields.saturating_sub(1),
        3 => fields + random.below(300),
        4 => random.bits(),
        _ => random.pick(&[
            0,
            255,
            256,
            257,
            1 << 32,
            (1 << 32) + fields.saturating_sub(1),
            1 << 63,
            u64::MAX,
        ]),
    }
}

/// A room for a message of `length` bytes, no more than any case of messages uses.
pub fn room(random: &mut Random, length: usize) -> usize {
    any_room(random, length).min(MOST_ROOM)
}

/// A room for something of `length` bytes: exact, one short, larger, smaller.
pub fn any_room(random: &mut Random, length: usize) -> usize {
    match random.share(&[40, 12, 30, 6, 6, 6]) {
        0 => length,
        1 => length.saturating_sub(1),
        2 => length + random.index(60),
        3 => random.index(length + 1),
        4 => length + 1,
        _ => 0,
    }
}

/// The length of a lent answer that needs `wanted` numbers.
pub fn answer_length(random: &mut Random, wanted: usize, longest: usize) -> usize {
    match random.share(&[700, 295, 3, 2]) {
        0 => longest,
        1 => wanted,
        2 => wanted - 1,
        _ => random.index(wanted),
    }
}

/// A state that no call handed back, near or far from the one that did.
pub fn forged(random: &mut Random, state: State, room: usize) -> State {
    let mut forged = state;
    for _ in 0..random.between(1, 3) {
        match random.index(4) {
            0 => forged.written = forged_number(random, state.written, room),
            1 => forged.declared = forged_number(random, state.added, room),
            2 => forged.added = forged_number(random, state.declared, room),
            _ => forged.closed = random.chance(30),
        }
    }
    forged
}

/// A number around which a state changes its meaning.
fn forged_number(random: &mut Random, near: u64, room: usize) -> u64 {
    let room = room as u64;
    match random.index(7) {
        0 => near.wrapping_add(random.below(5)).wrapping_sub(2),
        1 => random.pick(&[0, 1, 2, 127, 255, 256, 257]),
        2 => random.pick(&[65_528, 65_534, 65_535, 65_536, 65_537]),
        3 => room.wrapping_add(random.below(5)).wrapping_sub(2),
        4 => random.pick(&[u64::MAX, u64::MAX - 1, u64::MAX - 8, 1 << 63, 1 << 32, (1 << 32) + 1]),
        5 => random.below(room.max(1)),
        _ => random.bits() >> random.below(64),
    }
}

/// A message number, often an extreme one.
pub fn message_number(random: &mut Random) -> i64 {
    if random.chance(30) {
        random.pick(&[0, 1, -1, 124, i64::MIN, i64::MAX])
    } else {
        random.bits() as i64
    }
}

/// A status, mostly an allowed one.
pub fn status(random: &mut Random) -> u8 {
    match random.share(&[90, 5, 5]) {
        0 => random.between(1, 3) as u8,
        1 => random.pick(&[0, 4, 127, 128, 255]),
        _ => random.byte(),
    }
}

/// A declared number of fields, mostly small and allowed.
pub fn declared(random: &mut Random) -> u64 {
    match random.share(&[60, 8, 8, 5, 4]) {
        0 => random.below(7),
        1 => random.pick(&[0, 126, 127, 128, 129]),
        2 => random.pick(&[255, 256, 257]),
        3 => random.pick(&[32_767, 65_535, 65_536, 65_537, 1 << 32, 1 << 63, u64::MAX]),
        _ => random.bits() >> random.below(64),
    }
}

/// The stated type code of a count, mostly an allowed one.
pub fn count_kind(random: &mut Random) -> Option<u8> {
    match random.share(&[30, 60, 5, 5]) {
        0 => None,
        1 => Some(random.index(3) as u8),
        2 => Some(3),
        _ => Some(random.byte()),
    }
}
