//! Commands, right and wrong in each way.

use super::field::{field, mark};
use super::message::damage;
use super::run::{header, text};
use crate::plain::COMMANDS;
use crate::random::Random;

/// What is wrong with a generated command.
#[derive(Clone, Copy, PartialEq)]
enum Fault {
    None,
    Type,
    Status,
    Number,
    Code,
    Word,
    Streams,
    Bytes,
}

const FAULTS: [Fault; 8] = [
    Fault::None,
    Fault::Type,
    Fault::Status,
    Fault::Number,
    Fault::Code,
    Fault::Word,
    Fault::Streams,
    Fault::Bytes,
];

/// Makes a command, mostly with no fault or one, now and then with two.
pub fn command(random: &mut Random, out: &mut Vec<u8>) {
    out.clear();
    let shares = [40, 8, 8, 10, 14, 16, 6, 6];
    let first = FAULTS[random.share(&shares)];
    let second = if random.chance(25) { FAULTS[random.share(&shares)] } else { Fault::None };
    // Every row is met, and the ones with more to judge more often.
    let row = match random.share(&[60, 15, 25]) {
        0 => random.index(COMMANDS.len()),
        1 => 0,
        _ => 1,
    };
    let (id, status, letters) = COMMANDS[row];
    let letters = letters_of(random, letters);
    let mut fields: Vec<Vec<u8>> = letters.chars().map(|letter| right(random, letter)).collect();
    if let (Some(streams), true) = (fields.get_mut(5), id == "FM.2") {
        *streams = int((letters.len() as i32 - 6) / 2);
    }
    let (mut type_id, mut status) = (text(id.as_bytes()), status);
    for fault in [first, second] {
        match fault {
            Fault::Type => type_id = wrong_type(random, id),
            Fault::Status => status = random.between(1, 3) as u8,
            fault => wrong_field(random, fault, &letters, &mut fields),
        }
    }
    let ids = [&[1, 0, 1], &[1, 0, 2], &[1, 0, 3], &type_id[..]];
    let number = random.bits() as i64;
    header(random, ids, number, status, fields.len(), out);
    out.extend(fields.concat());
    if first == Fault::Bytes || second == Fault::Bytes {
        damage(random, out);
    }
}

/// The letters of a command's fields, with some pairs where it has pairs.
fn letters_of(random: &mut Random, letters: &str) -> String {
    match letters.split_once('+') {
        None => letters.to_owned(),
        Some((least, more)) => {
            let times = match random.share(&[25, 70, 4, 1]) {
                0 => 0,
                1 => random.between(1, 4),
                2 => random.between(5, 20),
                _ => 125,
            };
            least.to_owned() + &more.repeat(times as usize)
        }
    }
}

/// An encoded int.
fn int(value: i32) -> Vec<u8> {
    [&[2], &value.to_be_bytes()[..]].concat()
}

/// Random bytes after a code.
fn of_width(random: &mut Random, code: u8, width: usize) -> Vec<u8> {
    let mut field = vec![code];
    random.bytes(width, &mut field);
    field
}

/// A number, or a float or double with a mark of this unit type.
fn time(random: &mut Random, unit: u8) -> Vec<u8> {
    let code = random.pick(&[1, 2, 3, 4, 5, 25, 26, 25, 26]);
    if code < 25 {
        return of_width(random, code, [2, 4, 8, 4, 8][usize::from(code - 1)]);
    }
    let mut field = vec![code];
    mark(random, unit, &mut field);
    random.bytes(if code == 25 { 4 } else { 8 }, &mut field);
    field
}

/// A field that is right where a row has this letter, or one that is nearly
/// right: `0` is a byte, `c` a character, `w` a string of 16-bit characters.
fn right(random: &mut Random, letter: char) -> Vec<u8> {
    let short = random.index(5);
    match letter {
        's' => text(&b"M/M/1"[..short]),
        'S' => text(&b"M/M/1"[..short + 1]),
        'm' => text(random.pick(&["started", "running", "ended", "error"]).as_bytes()),
        'e' => text(random.pick(&["name", "novalue"]).as_bytes()),
        'b' => vec![6, random.byte() & 1],
        'h' => of_width(random, 1, 2),
        'i' => of_width(random, 2, 4),
        'l' => of_width(random, 3, 8),
        'd' => of_width(random, 5, 8),
        '0' => of_width(random, 0, 1),
        'c' => of_width(random, 7, 1),
        'w' => [&[10, 0, 0, 0, short as u8], &[0; 10][..2 * short]].concat(),
        'D' => time(random, 25),
        'T' => time(random, 26),
        'n' => match random.index(4) {
            0 => of_width(random, 1, 2),
            1 => of_width(random, 2, 4),
            2 => of_width(random, 3, 8),
            _ => text(&b"M/M/1"[..short]),
        },
        _ => {
            let mut any = Vec::new();
            field(random, None, &mut any);
            any
        }
    }
}

/// A type id that is mostly not that of a command.
fn wrong_type(random: &mut Random, id: &str) -> Vec<u8> {
    match random.index(5) {
        0 => {
            let wide = id.bytes().flat_map(|byte| [0, byte]);
            [10, 0, 0, 0, id.len() as u8].into_iter().chain(wide).collect()
        }
        1 => text(&id.as_bytes()[..random.index(id.len())]),
        2 => text(&[id.as_bytes(), random.pick(&[&b"\0"[..], b" ", b"0", b"1"])].concat()),
        3 => random.pick(&[&[1, 0, 1][..], &[2, b'F', b'M', b'.', b'1'], &[9, 0, 0, 0, 0]]).into(),
        _ => {
            let mut other = id.as_bytes().to_vec();
            let place = random.index(other.len());
            other[place] = random.pick(b"FMSC.0123456789:f");
            text(&other)
        }
    }
}

/// Does a fault to the fields.
fn wrong_field(random: &mut Random, fault: Fault, letters: &str, fields: &mut Vec<Vec<u8>>) {
    match fault {
        Fault::Number if random.chance(50) && !fields.is_empty() => {
            fields.remove(random.index(fields.len()));
        }
        Fault::Number if random.chance(20) => fields.truncate(random.index(fields.len() + 1)),
        Fault::Number if fields.len() < 256 => {
            let letter = random.pick(&['s', 'i', 'l', 'b', 'n']);
            fields.push(right(random, letter));
        }
        Fault::Code if !fields.is_empty() => {
            let place = random.index(fields.len());
            let near = ['s', 'b', 'h', 'i', 'l', 'd', 'D', 'T', '0', 'c', 'w', 'w', '0', '*'];
            let letter = random.pick(&near);
            fields[place] = right(random, letter);
        }
        Fault::Word => wrong_words(random, letters, fields),
        Fault::Streams if fields.len() > 5 => {
            let told = (fields.len() as i32 - 6) / 2;
            let near = told + random.pick(&[-1, 0, 1]);
            let value = random.pick(&[near, near, -1, i32::MIN, i32::MAX, told - 256, 1 << 30]);
            let letter = random.pick(&['h', 'l', 'D', 's']);
            fields[5] = if random.chance(70) { int(value) } else { right(random, letter) };
        }
        _ => {}
    }
}

/// Makes one or more strings empty, or words that are nearly right.
fn wrong_words(random: &mut Random, letters: &str, fields: &mut [Vec<u8>]) {
    for (letter, field) in letters.chars().zip(fields) {
        if !"Ssmen".contains(letter) || !random.chance(40) {
            continue;
        }
        let near: [&[u8]; 8] =
            [b"", b"", b"", b"Started", b"ende", b"errors", b"names", b"no value"];
        *field = text(random.pick(&near));
    }
}
