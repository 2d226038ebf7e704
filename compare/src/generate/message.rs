//! Whole messages and the ids of their headers.

use super::field::{field, scalar_field, sized_field, FieldFault};
use super::{message_number, MOST_ROOM};
use crate::random::Random;

/// A generated message and the field count it was made with.
#[derive(Clone, Debug, Default)]
pub struct Message {
    /// The bytes.
    pub bytes: Vec<u8>,
    /// The number of fields it says it has, as far as it is known.
    pub fields: u64,
}

/// What is wrong with a generated message.
#[derive(Clone, Copy, Debug, PartialEq, Eq)]
enum Fault {
    Magic,
    Digits,
    IdCode,
    IdNegative,
    IdHuge,
    NumberCode,
    StatusCode,
    Status,
    CountCode,
    CountNegative,
    CountMany,
    CountOff,
    Field(FieldFault),
}

/// Every fault of a header.
const HEADER_FAULTS: [Fault; 12] = [
    Fault::Magic,
    Fault::Digits,
    Fault::IdCode,
    Fault::IdNegative,
    Fault::IdHuge,
    Fault::NumberCode,
    Fault::StatusCode,
    Fault::Status,
    Fault::CountCode,
    Fault::CountNegative,
    Fault::CountMany,
    Fault::CountOff,
];

/// Makes a message of any sort.
pub fn message(random: &mut Random, made: &mut Message) {
    made.bytes.clear();
    match random.share(&[6, 4, 3, 87]) {
        0 => noise(random, made),
        1 => {
            made.bytes.extend(b"\x09\0\0\0\x05SIM01");
            noise(random, made);
        }
        2 => near_limit(random, made),
        _ => {
            let fault = match random.share(&[60, 16, 24]) {
                0 => None,
                1 => Some(random.pick(&HEADER_FAULTS)),
                _ => Some(Fault::Field(random.pick(&FieldFault::ALL))),
            };
            build(random, fault, made);
        }
    }
    if random.chance(30) {
        damage(random, &mut made.bytes);
    }
}

/// Makes a message without any fault.
pub fn sound_message(random: &mut Random, made: &mut Message) {
    made.bytes.clear();
    if random.chance(3) {
        sized_message(random, 65_536, made);
        return;
    }
    build(random, None, made);
    while made.bytes.len() > 65_536 {
        made.bytes.clear();
        build(random, None, made);
    }
}

/// Appends four encoded id frames, now and then with a fault.
pub fn header_ids(random: &mut Random, out: &mut Vec<u8>) {
    let fault = match random.share(&[90, 4, 3, 3]) {
        1 => Some(Fault::IdCode),
        2 => Some(Fault::IdNegative),
        3 => Some(Fault::IdHuge),
        _ => None,
    };
    ids(random, fault, out);
    match random.share(&[90, 4, 4, 2]) {
        1 => {
            let extra = random.between(1, 4) as usize;
            random.bytes(extra, out);
        }
        2 => out.truncate(random.index(out.len().max(1))),
        3 => long_ids(random, out),
        _ => {}
    }
}

/// Makes ids around or past the length at which a header is too long.
fn long_ids(random: &mut Random, out: &mut Vec<u8>) {
    out.clear();
    // A header is at most 26 bytes longer than its ids; three of these have 3.
    let past = if random.chance(70) { random.index(8) } else { random.index(4_000) };
    let characters = 65_536 - 26 - 14 + past;
    out.push(9);
    out.extend((characters as u32).to_be_bytes());
    random.bytes(characters, out);
    out.extend([1, 0, 7].repeat(3));
}

/// Appends random bytes, mostly few of them.
fn noise(random: &mut Random, made: &mut Message) {
    let most = 1 << random.below(18);
    let count = random.index(most).min(MOST_ROOM - 100);
    random.bytes(count, &mut made.bytes);
    made.fields = random.below(4);
}

/// A message around the longest allowed length.
fn near_limit(random: &mut Random, made: &mut Message) {
    let length = 65_536 + random.index(6) - 3;
    sized_message(random, length, made);
    if random.chance(20) {
        random.bytes(3, &mut made.bytes);
    }
}

/// A message of this length or a few bytes less.
fn sized_message(random: &mut Random, length: usize, made: &mut Message) {
    let fields = random.between(1, 5);
    header(random, None, fields, made);
    for _ in 1..fields {
        field(random, None, &mut made.bytes);
    }
    let left = length - made.bytes.len();
    sized_field(random, left, &mut made.bytes);
}

/// A message from its header on, with a fault if one is given.
fn build(random: &mut Random, fault: Option<Fault>, made: &mut Message) {
    let least = u64::from(matches!(fault, Some(Fault::Field(_))));
    let fields = match random.share(&[8, 25, 50, 13, 3, 1]) {
        0 => 0,
        1 => 1,
        2 => random.between(2, 6),
        3 => random.between(7, 40),
        4 => random.between(120, 130),
        _ => random.between(250, 256),
    };
    let fields = fields.max(least);
    header(random, fault, fields, made);
    let wrong = random.below(fields.max(1));
    // Three in ten messages have scalars of one code after the other, mostly more than one of a code.
    let runs = random.chance(30);
    let mut code = random.between(0, 8) as u8;
    for number in 0..fields {
        match fault {
            Some(Fault::Field(fault)) if number == wrong => {
                field(random, Some(fault), &mut made.bytes);
            }
            _ if runs => {
                if random.chance(15) {
                    code = random.between(0, 8) as u8;
                }
                scalar_field(random, code, &mut made.bytes);
            }
            _ => field(random, None, &mut made.bytes),
        }
    }
}

/// Appends a header that declares `fields` fields.
fn header(random: &mut Random, fault: Option<Fault>, fields: u64, made: &mut Message) {
    let out = &mut made.bytes;
    let start = out.len();
    out.extend(b"\x09\0\0\0\x05SIM01");
    match fault {
        Some(Fault::Magic) => out[start + random.index(10)] = random.byte(),
        Some(Fault::Digits) => {
            out[start + 8] = b'0' + random.index(10) as u8;
            out[start + 9] = b'0' + random.index(11) as u8;
        }
        _ => {}
    }
    ids(random, fault, out);
    out.push(if fault == Some(Fault::NumberCode) { random.byte() } else { 3 });
    out.extend(message_number(random).to_be_bytes());
    out.push(if fault == Some(Fault::StatusCode) { random.byte() } else { 0 });
    out.push(match fault {
        Some(Fault::Status) => random.pick(&[0, 4, 5, 128, 255]),
        _ => random.between(1, 3) as u8,
    });
    made.fields = fields;
    count_frame(random, fault, made);
}

/// Appends frame 7.
fn count_frame(random: &mut Random, fault: Option<Fault>, made: &mut Message) {
    let fields = made.fields as u32;
    let mut kind = random.pick(&[0, 1, 1, 2]);
    if fields > 127 && kind == 0 {
        kind = 1;
    }
    let shown = match fault {
        Some(Fault::CountNegative) => random.pick(&[u32::MAX, 0x8080_8080, 0xFFFF_FF80]),
        Some(Fault::CountMany) => {
            kind = random.pick(&[1, 2]);
            random.pick(&[257, 258, 512, 0x7FFF, 0x7FFF_0101, 0x0101])
        }
        Some(Fault::CountOff) => random.pick(&[fields + 1, fields.saturating_sub(1), 0, 256, 127]),
        _ => fields,
    };
    made.fields = shown.into();
    let out = &mut made.bytes;
    out.push(if fault == Some(Fault::CountCode) { random.byte() } else { kind });
    let width = 1 << kind;
    out.extend(&shown.to_be_bytes()[4 - width..]);
}

/// Appends four id frames.
fn ids(random: &mut Random, fault: Option<Fault>, out: &mut Vec<u8>) {
    let wrong = random.index(4);
    for number in 0..4 {
        let start = out.len();
        id(random, out);
        if number != wrong {
            continue;
        }
        match fault {
            Some(Fault::IdCode) => out[start] = random.byte(),
            Some(Fault::IdNegative) => {
                out.truncate(start);
                out.push(random.pick(&[9, 10]));
                out.extend([random.between(128, 255) as u8, 0, 0, random.byte()]);
            }
            Some(Fault::IdHuge) => {
                let huge: u32 = random.pick(&[0x7FFF_FFFF, 0x4000_0000, 0x1_0000, 0x8000]);
                out.truncate(start);
                out.push(random.pick(&[9, 10]));
                out.extend(huge.to_be_bytes());
            }
            _ => {}
        }
    }
}

/// Appends one id frame.
fn id(random: &mut Random, out: &mut Vec<u8>) {
    let code = random.pick(&[9, 9, 10, 1, 2]);
    out.push(code);
    match code {
        1 => random.bytes(2, out),
        2 => random.bytes(4, out),
        _ => {
            let characters = match random.share(&[15, 80, 5]) {
                0 => 0,
                1 => random.between(1, 10),
                _ => random.between(11, 300),
            } as usize;
            out.extend((characters as u32).to_be_bytes());
            random.bytes(characters * usize::from(code - 8), out);
        }
    }
}

/// Damages bytes in one or more places.
pub(super) fn damage(random: &mut Random, bytes: &mut Vec<u8>) {
    for _ in 0..random.pick(&[1, 1, 1, 2, 5]) {
        match random.share(&[30, 15, 25, 15, 15]) {
            0 if !bytes.is_empty() => {
                let place = random.index(bytes.len());
                bytes[place] = random.byte();
            }
            1 if !bytes.is_empty() => {
                let place = random.index(bytes.len());
                bytes[place] ^= 1 << random.below(8);
            }
            2 => {
                let most = random.pick(&[bytes.len(), bytes.len().min(80), bytes.len().min(8)]);
                bytes.truncate(bytes.len() - random.index(most + 1));
            }
            3 => {
                let extra = random.between(1, 9) as usize;
                random.bytes(extra, bytes);
            }
            4 if bytes.len() >= 4 => {
                let place = random.index(bytes.len() - 3);
                let number: u32 = random.pick(&[0, 1, 256, 257, u32::MAX, 0x7FFF_FFFF, 1 << 31]);
                bytes[place..place + 4].copy_from_slice(&number.to_be_bytes());
            }
            _ => {}
        }
    }
}
