//! Recordings whole, cut and changed, of both editions.

use super::field::sized_field;
use super::message::{damage, message, sound_message, Message};
use super::run::{header, Run};
use crate::peer::recordings::Recorder;
use crate::random::Random;

/// The least message: four ids of 16 bits and no field.
const LEAST: &[u8; 35] = b"\x09\0\0\0\x05SIM01\x01\0\0\x01\0\0\x01\0\0\x01\0\0\
    \x03\0\0\0\0\0\0\0\0\0\x01\0\0";

/// A generated recording and what it was made with.
#[derive(Clone, Debug, Default)]
pub struct Recording {
    /// The bytes.
    pub bytes: Vec<u8>,
    /// The number of messages.
    pub messages: u64,
    /// The bytes that salvage most likely needs.
    pub salvaged: usize,
    /// The length of each message.
    lengths: Vec<u32>,
}

impl Recording {
    /// Puts a message at the end.
    fn push(&mut self, message: &[u8]) {
        self.bytes.extend(message);
        self.lengths.push(message.len() as u32);
    }
}

/// Makes a recording, mostly sound or with one fault.
pub fn recording(random: &mut Random, made: &mut Recording) {
    made.bytes.clear();
    made.lengths.clear();
    let edition = random.pick(&[1, 2, 2]);
    messages(random, edition, made);
    let end = made.bytes.len();
    made.messages = made.lengths.len() as u64;
    made.salvaged = end + 8 * made.lengths.len() + 10;
    // A file of as many messages as there may be is cut more often, to see where salvage stops.
    let cuts = if made.messages > 4_000 { 90 } else { 10 };
    let fault = random.share(&[45, 15, 15, 15, cuts]);
    if fault == 3 && end > 0 {
        let place = random.index(end);
        let byte = random.byte();
        made.bytes[place] = if random.chance(50) { byte } else { made.bytes[place] ^ 1 };
    }
    let mut entries = spans(&made.lengths);
    if fault == 2 {
        wrong_index(random, edition, &mut entries);
    }
    let mut trailer = (end as u32, made.lengths.len() as u32, edition);
    if fault == 1 {
        wrong_trailer(random, end, &mut trailer);
    }
    for (start, length) in entries {
        made.bytes.extend(start.to_be_bytes());
        made.bytes.extend(&length.to_be_bytes()[if edition == 1 { 2 } else { 0 }..]);
    }
    made.bytes.extend(trailer.0.to_be_bytes());
    made.bytes.extend(trailer.1.to_be_bytes());
    made.bytes.extend(trailer.2.to_be_bytes());
    match fault {
        4 if random.chance(70) => cut(random, made),
        4 => damage(random, &mut made.bytes),
        _ => {}
    }
}

/// The message that a recorder is given next.
pub fn recorded_message(random: &mut Random, run: &mut Run, made: &mut Message) {
    match random.share(&[60, 25, 10, 5]) {
        0 => run.muster(random, &mut made.bytes),
        1 => sound_message(random, made),
        2 => message(random, made),
        _ => {
            run.muster(random, &mut made.bytes);
            damage(random, &mut made.bytes);
        }
    }
}

/// A recorder's state that no call handed back, near or far from one that did.
pub fn forged_recorder(random: &mut Random, state: Recorder, room: usize) -> Recorder {
    let mut forged = state;
    for _ in 0..random.between(1, 2) {
        match random.index(3) {
            0 => {
                let near = state.written.wrapping_add(random.below(5)).wrapping_sub(2);
                let room = (room as u64).wrapping_add(random.below(3)).wrapping_sub(1);
                let far = random.pick(&[0, u64::MAX, 1 << 32, 1 << 63, 35]);
                forged.written = random.pick(&[near, room, far]);
            }
            1 => {
                let near = state.messages.wrapping_add(random.below(3)).wrapping_sub(1);
                let far = random.pick(&[0, 4095, 4096, 4097, u64::MAX, 1 << 32]);
                forged.messages = random.pick(&[near, near, far]);
            }
            _ => forged.closed = random.chance(30),
        }
    }
    forged
}

/// Puts messages in a recording: mostly few and short.
fn messages(random: &mut Random, edition: u16, made: &mut Recording) {
    let mut run = Run::new(random);
    let mut next = Message::default();
    let count = match random.share(&[500, 6000, 3000, 470, 5]) {
        0 => 0,
        1 => random.between(1, 3),
        2 => random.between(4, 10),
        3 => random.between(11, 40),
        _ => random.between(4094, 4098),
    };
    let wrong = if random.chance(12) { random.below(count + 1) } else { count };
    for number in 0..count {
        if count > 4_000 {
            next.bytes.clear();
            next.bytes.extend(LEAST);
        } else if number == wrong {
            recorded_message(random, &mut run, &mut next);
        } else if random.chance(90) {
            run.muster(random, &mut next.bytes);
        } else {
            sound_message(random, &mut next);
        }
        // A longer one has no entry in edition 1.
        if edition == 2 || next.bytes.len() <= 65_535 {
            made.push(&next.bytes);
        }
    }
    if random.below(400) == 0 {
        let most = if edition == 1 { 32_768 } else { 65_536 };
        let past = random.pick(&[0, 0, 1, 1, 2, 5, 100]);
        long_message(random, most + past, &mut next.bytes);
        made.push(&next.bytes);
    }
}

/// Makes a sound message of this length or a few bytes less.
fn long_message(random: &mut Random, length: usize, out: &mut Vec<u8>) {
    out.clear();
    let ids = [&[1, 0, 1][..], &[1, 0, 2], &[1, 0, 3], &[1, 0, 4]];
    header(random, ids, 7, 1, 1, out);
    sized_field(random, length - out.len(), out);
}

/// The entries of messages of these lengths.
fn spans(lengths: &[u32]) -> Vec<(u32, u32)> {
    let mut start = 0;
    let entry = |&length: &u32| {
        start += length;
        (start - length, length)
    };
    lengths.iter().map(entry).collect()
}

/// Changes entries so that they do not tile, at times only without wrapping.
fn wrong_index(random: &mut Random, edition: u16, entries: &mut [(u32, u32)]) {
    if entries.is_empty() {
        return;
    }
    let (one, two) = (random.index(entries.len()), random.index(entries.len()));
    let by = random.pick(&[1, u32::MAX, 35, 1 << 16, 1 << 31, 256]);
    match random.index(7) {
        0 => entries[one].0 = entries[one].0.wrapping_add(by),
        1 => entries[one].1 = entries[one].1.wrapping_add(by),
        2 => entries.swap(one, two),
        // The lengths still come to the same, the starts do not follow.
        3 => {
            entries[one].1 = entries[one].1.wrapping_add(by);
            entries[two].1 = entries[two].1.wrapping_sub(by);
        }
        // The starts follow, and the last message ends elsewhere or wraps to the end.
        4 | 5 => {
            let half = if edition == 1 { by } else { 1 << 31 };
            entries[one].1 = entries[one].1.wrapping_add(half);
            entries[two].1 = entries[two].1.wrapping_add(half);
            let mut start = 0_u32;
            for entry in entries {
                entry.0 = start;
                start = start.wrapping_add(entry.1);
            }
        }
        _ => {
            entries[one].0 = random.bits() as u32;
            entries[two].1 = random.bits() as u32;
        }
    }
}

/// Changes a trailer, at times so that its sum holds or wraps.
fn wrong_trailer(random: &mut Random, end: usize, trailer: &mut (u32, u32, u16)) {
    let (place, entries, edition) = *trailer;
    let width = if edition == 1 { 6 } else { 8 };
    match random.index(5) {
        0 => trailer.2 = random.pick(&[0, 1, 2, 3, 256, 512, 513, u16::MAX]),
        1 => {
            let near = random.pick(&[entries.wrapping_sub(1), entries + 1]);
            trailer.1 = random.pick(&[near, 0, 4096, 4097, u32::MAX, 1 << 31, 1 << 29]);
        }
        2 => {
            let near = random.pick(&[place.wrapping_sub(1), place + 1, place + width]);
            trailer.0 = random.pick(&[near, 0, u32::MAX, 1 << 31, place ^ 0x8000_0000]);
        }
        // Another number of entries with the place that makes up for it.
        3 => {
            let whole = end as u32 + width * entries;
            trailer.1 = random.below(u64::from(entries) + 3) as u32;
            if random.chance(30) {
                trailer.1 = random.pick(&[4095, 4096, 4097, 1 << 29, u32::MAX]);
            }
            trailer.0 = whole.wrapping_sub(width.wrapping_mul(trailer.1));
        }
        _ => trailer.0 = random.bits() as u32,
    }
}

/// Takes bytes from the end, or puts some there or at the front.
fn cut(random: &mut Random, made: &mut Recording) {
    let length = made.bytes.len();
    match random.share(&[50, 20, 20, 10]) {
        0 => made.bytes.truncate(random.index(length)),
        1 => made.bytes.truncate(length - random.between(1, 10) as usize),
        2 => {
            // After a whole message, so that nothing is left of the next.
            let most = made.lengths.len();
            let near = most - random.index(4).min(most);
            let whole = if random.chance(60) { near } else { random.index(most + 1) };
            made.bytes.truncate(made.lengths[..whole].iter().sum::<u32>() as usize);
        }
        _ => {
            let more = random.between(1, 9) as usize;
            random.bytes(more, &mut made.bytes);
        }
    }
    let fits =
        |&whole: &usize| made.lengths[..whole].iter().sum::<u32>() as usize <= made.bytes.len();
    let kept = (0..=made.lengths.len()).rev().find(fits).unwrap_or(0);
    let end = made.lengths[..kept].iter().sum::<u32>() as usize;
    made.salvaged = end + 8 * kept + 10;
}
