//! A slow, plain model of the rules, to be compared with the peer.
//!
//! It takes items off the front of a message in 128-bit arithmetic, keeps
//! lists, and judges a scalar by encoding it and asking for it again.

mod parts;
mod sums;

pub use parts::COMMANDS;

use crate::peer::{Reading, Refusal, State, Value};
use crate::subject::{
    give, reading_numbers, refused, value_numbers, writer_numbers, Opening, Subject, BLANK, VIEW,
};

type Judged<T> = Result<T, Refusal>;

/// The plain model.
#[derive(Clone, Copy, Debug)]
pub struct Plain;

/// The currency codes of the manual's Appendix A, section 100, in its order: typed a second time, apart from the peer's
/// list, which goes by the numbers, so that a slip in either shows as a difference.
pub const CURRENCIES: [u16; 180] = [
    784, 971, 8, 51, 532, 973, 32, 36, 533, 944, 977, 52, 50, 975, 48, 108, 60, 96, 68, 984, 986,
    44, 64, 72, 933, 974, 84, 124, 976, 947, 756, 948, 990, 152, 156, 170, 970, 188, 931, 192, 132,
    203, 262, 208, 214, 12, 818, 232, 230, 978, 242, 238, 826, 981, 936, 292, 270, 324, 320, 328,
    344, 340, 191, 332, 348, 360, 376, 356, 368, 364, 352, 388, 400, 392, 404, 417, 116, 174, 408,
    410, 414, 136, 398, 418, 422, 144, 430, 426, 434, 504, 498, 969, 807, 104, 496, 446, 478, 480,
    462, 454, 484, 979, 458, 943, 516, 566, 558, 578, 524, 554, 512, 590, 604, 598, 608, 586, 985,
    600, 634, 946, 941, 643, 646, 682, 90, 690, 938, 752, 702, 654, 694, 706, 968, 728, 678, 222,
    760, 748, 764, 972, 934, 788, 776, 949, 780, 901, 834, 980, 800, 840, 997, 940, 858, 860, 937,
    704, 548, 882, 950, 961, 959, 955, 956, 957, 958, 951, 960, 952, 964, 953, 962, 994, 963, 965,
    999, 886, 710, 967, 932, 1000,
];

/// One refusal.
fn no<T>(number: u32, place: usize) -> Judged<T> {
    Err(Refusal { number, place: place as u64 })
}

/// Bytes and how many of them have been taken.
struct Scan<'a> {
    bytes: &'a [u8],
    at: usize,
}

impl<'a> Scan<'a> {
    fn take(&mut self, count: i128) -> Judged<&'a [u8]> {
        if self.at as i128 + count > self.bytes.len() as i128 {
            return no(1, self.bytes.len());
        }
        let start = self.at;
        self.at += count as usize;
        Ok(&self.bytes[start..self.at])
    }

    /// A signed big-endian number of `width` bytes.
    fn number(&mut self, width: i128) -> Judged<i128> {
        let bytes = self.take(width)?;
        let unsigned = bytes.iter().fold(0, |sum, &byte| sum * 256 + i128::from(byte));
        let full = 1 << (8 * bytes.len());
        Ok(if unsigned >= full / 2 { unsigned - full } else { unsigned })
    }

    /// A count that is not negative.
    fn count(&mut self, width: i128) -> Judged<i128> {
        let place = self.at;
        let count = self.number(width)?;
        if count < 0 {
            return no(5, place);
        }
        Ok(count)
    }

    /// A type code of this list.
    fn code(&mut self, allowed: &[u8]) -> Judged<u8> {
        let place = self.at;
        let code = self.take(1)?[0];
        if !allowed.contains(&code) {
            return no(4, place);
        }
        Ok(code)
    }

    fn id(&mut self) -> Judged<u8> {
        let code = self.code(&[1, 2, 9, 10])?;
        match code {
            1 => drop(self.take(2)?),
            2 => drop(self.take(4)?),
            _ => {
                let characters = self.count(4)?;
                self.take(characters * i128::from(code - 8))?;
            }
        }
        Ok(code)
    }

    fn magic(&mut self) -> Judged<()> {
        for (place, wanted) in [9, 0, 0, 0, 5, b'S', b'I', b'M'].into_iter().enumerate() {
            if self.take(1)?[0] != wanted {
                return no(2, place);
            }
        }
        let mut digits = [0; 2];
        for (place, digit) in digits.iter_mut().enumerate() {
            *digit = self.take(1)?[0];
            if *digit < b'0' || *digit > b'9' {
                return no(2, 8 + place);
            }
        }
        if digits == [b'0', b'1'] {
            Ok(())
        } else {
            no(3, 8)
        }
    }

    fn header(&mut self) -> Judged<([(u64, u8); 8], u64)> {
        let mut frames = [(0, 9); 8];
        self.magic()?;
        for frame in &mut frames[1..5] {
            *frame = (self.at as u64, self.id()?);
        }
        frames[5] = (self.at as u64, self.code(&[3])?);
        self.take(8)?;
        frames[6] = (self.at as u64, self.code(&[0])?);
        let status = self.take(1)?[0];
        if ![1, 2, 3].contains(&status) {
            return no(6, self.at - 1);
        }
        frames[7] = (self.at as u64, self.code(&[0, 1, 2])?);
        let place = self.at;
        let fields = self.count([1, 2, 4][usize::from(frames[7].1)])?;
        if fields > 256 {
            return no(7, place);
        }
        Ok((frames, fields as u64))
    }

    fn mark(&mut self) -> Judged<()> {
        const LAST: [u8; 29] = [
            0, 8, 1, 6, 3, 21, 1, 16, 7, 8, 8, 38, 1, 15, 6, 16, 21, 21, 21, 24, 15, 16, 13, 4, 4,
            10, 15, 3, 27,
        ];
        let unit = self.take(1)?[0];
        let shown = match unit {
            0..=28 => Some(unit),
            100 => None,
            101..=106 => Some([5, 11, 16, 19, 25, 28][usize::from(unit - 101)]),
            _ => return no(11, self.at - 1),
        };
        if unit >= 100 {
            let currency = self.number(2)?;
            if !CURRENCIES.iter().any(|&listed| currency == listed.into()) {
                return no(19, self.at - 2);
            }
        }
        if let Some(shown) = shown {
            let code = self.take(1)?[0];
            if code > LAST[usize::from(shown)] {
                return no(12, self.at - 1);
            }
        }
        Ok(())
    }

    /// The six table numbers of the next field.
    fn field(&mut self) -> Judged<[u32; 6]> {
        let place = self.at;
        let code = self.take(1)?[0];
        if code > 32 {
            return no(9, place);
        }
        let counts = match code {
            0..=8 | 25 | 26 => 0,
            9..=17 | 27 | 28 => 1,
            _ => 2,
        };
        let mut values = 1;
        let mut last = 0;
        for _ in 0..counts {
            last = self.count(4)?;
            values *= last;
        }
        let marks = match code {
            0..=24 => 0,
            25..=30 => 1,
            _ => last,
        };
        for _ in 0..marks {
            self.mark()?;
        }
        let first = self.at;
        let bytes = self.take(values * width(code))?;
        if matches!(code, 6 | 17 | 24) {
            if let Some(wrong) = bytes.iter().position(|&byte| byte > 1) {
                return no(10, first + wrong);
            }
        }
        let size = bytes.len() as u32;
        Ok([code.into(), place as u32, first as u32, size, marks as u32, values as u32])
    }

    fn end(&self) -> Judged<()> {
        if self.at == self.bytes.len() {
            Ok(())
        } else {
            no(13, self.at)
        }
    }
}

/// Bytes per value of a field code.
fn width(code: u8) -> i128 {
    let simple = [1, 2, 4, 8, 4, 8, 1];
    match code {
        7 | 9 => 1,
        8 | 10 => 2,
        0..=6 => simple[usize::from(code)],
        11..=17 => simple[usize::from(code - 11)],
        18..=24 => simple[usize::from(code - 18)],
        _ if code % 2 == 1 => 4,
        _ => 8,
    }
}

/// Reads a message into a list of fields.
fn read(message: &[u8], room: Option<usize>) -> Judged<(Reading, Vec<[u32; 6]>)> {
    if message.len() > 65_536 {
        return no(8, 0);
    }
    let mut scan = Scan { bytes: message, at: 0 };
    let (frames, fields) = scan.header()?;
    if room.is_some_and(|room| (room as u64) < 6 * fields) {
        return no(14, 0);
    }
    let table = (0..fields).map(|_| scan.field()).collect::<Judged<Vec<_>>>()?;
    scan.end()?;
    let marks: u64 = table.iter().map(|field| u64::from(field[4])).sum();
    let reading =
        Reading { length: message.len() as u64, fields, steps: 8 + fields + marks, frames };
    Ok((reading, table))
}

/// The table numbers of field `k`.
fn ask(message: &[u8], k: u64) -> Judged<[u32; 6]> {
    let (_, table) = read(message, None)?;
    match table.iter().enumerate().find(|&(number, _)| number as u64 == k) {
        Some((_, field)) => Ok(*field),
        None => no(16, 0),
    }
}

/// The scalar in a field of these table numbers.
fn scalar(bytes: &[u8], [code, place, first, size, _, _]: [u32; 6]) -> Judged<Value> {
    let kind = match code {
        0..=8 => code as u8,
        25 => 9,
        26 => 10,
        _ => return no(17, 0),
    };
    let number = Scan { bytes, at: first as usize }.number(size.into())?;
    let bits = (number as u64) & (u64::MAX >> (64 - 8 * size));
    let (exponent, fraction) = match size {
        4 => ((bits >> 23) & 0xFF == 0xFF, bits & 0x7F_FFFF),
        _ => ((bits >> 52) & 0x7FF == 0x7FF, bits & 0xF_FFFF_FFFF_FFFF),
    };
    if matches!(code, 4 | 5 | 25 | 26) && exponent && fraction != 0 {
        return Ok(Value { kind: 11, bits: code.into(), ..Value::default() });
    }
    let mut value = Value { kind, bits, ..Value::default() };
    if code >= 25 {
        let mut scan = Scan { bytes, at: place as usize + 1 };
        value.unit = scan.take(1)?[0];
        if value.unit >= 100 {
            value.currency = scan.number(2)? as u16;
        }
        if value.unit != 100 {
            value.display = scan.take(1)?[0];
        }
    }
    Ok(value)
}

/// The field that asking would answer with this value.
fn encode(value: Value) -> Judged<Vec<u8>> {
    let code = match value.kind {
        kind @ 0..=8 => kind,
        kind @ 9..=10 => kind + 16,
        _ => return no(17, 0),
    };
    let mut wanted = value;
    let mut field = vec![code];
    if code >= 25 {
        field.push(value.unit);
        if value.unit >= 100 {
            field.extend(value.currency.to_be_bytes());
        }
        if value.unit != 100 {
            field.push(value.display);
        }
    } else {
        wanted = Value { unit: 0, currency: 0, display: 0, ..value };
    }
    field.extend(&value.bits.to_be_bytes()[8 - width(code) as usize..]);
    let mut scan = Scan { bytes: &field, at: 0 };
    match scan.field().and_then(|entry| scalar(&field, entry)) {
        Ok(asked) if asked == wanted => Ok(field),
        _ => no(17, 0),
    }
}

/// The header that an opening writes.
fn open(opening: &Opening, room: usize) -> Judged<Vec<u8>> {
    let mut scan = Scan { bytes: opening.ids, at: 0 };
    for _ in 0..4 {
        scan.id()?;
    }
    scan.end()?;
    let kind = opening.kind.unwrap_or(2);
    let most = [127, 256, 256];
    if opening.status == 0 || opening.status > 3 {
        return no(6, 0);
    }
    if kind > 2 {
        return no(4, 0);
    }
    if opening.fields > most[usize::from(kind)] {
        return no(7, 0);
    }
    let mut header = b"\x09\0\0\0\x05SIM01".to_vec();
    header.extend(opening.ids);
    header.push(3);
    header.extend(opening.number.to_be_bytes());
    header.extend([0, opening.status, kind]);
    match kind {
        0 => header.push(opening.fields as u8),
        1 => header.extend((opening.fields as u16).to_be_bytes()),
        _ => header.extend((opening.fields as u32).to_be_bytes()),
    }
    room_for(header.len() as u64, room)?;
    Ok(header)
}

/// Whether a message of this length is allowed and has room.
fn room_for(length: u64, room: usize) -> Judged<()> {
    if length > 65_536 {
        no(8, 0)
    } else if length > room as u64 {
        no(14, 0)
    } else {
        Ok(())
    }
}

/// Adds what `make` makes, if the state and the room allow it.
fn add(
    state: State,
    out: &mut [u8],
    make: impl FnOnce() -> Judged<Vec<u8>>,
) -> (Judged<u64>, State) {
    let judged = (|| {
        let outside = state.written > 65_536 || state.written > out.len() as u64;
        if state.closed || outside || state.added >= state.declared {
            return no(15, 0);
        }
        let field = make()?;
        room_for(state.written + field.len() as u64, out.len())?;
        Ok(field)
    })();
    match judged {
        Err(refusal) => (Err(refusal), state),
        Ok(field) => {
            let end = state.written + field.len() as u64;
            out[state.written as usize..end as usize].copy_from_slice(&field);
            (Ok(end), State { written: end, added: state.added + 1, ..state })
        }
    }
}

impl Subject for Plain {
    fn name(&self) -> &'static str {
        "plain"
    }

    fn read(&self, message: &[u8], table: &mut [u32], answer: &mut [u64]) -> u32 {
        give(answer, || {
            reading_numbers(read(message, Some(table.len())).map(|(reading, fields)| {
                table[..6 * fields.len()].copy_from_slice(&fields.concat());
                reading
            }))
        })
    }

    fn judge(&self, message: &[u8], answer: &mut [u64]) -> u32 {
        give(answer, || reading_numbers(read(message, None).map(|(reading, _)| reading)))
    }

    fn value(&self, message: &[u8], k: u64, answer: &mut [u64]) -> u32 {
        give(answer, || value_numbers(ask(message, k).and_then(|field| scalar(message, field))))
    }

    fn view(&self, message: &[u8], k: u64, answer: &mut [u64]) -> u32 {
        give::<VIEW>(answer, || match ask(message, k) {
            Err(refusal) => refused(refusal),
            Ok([_, _, first, size, ..]) => [0, 0, first.into(), size.into()],
        })
    }

    fn blank(&self, message: &[u8], out: &mut [u8], answer: &mut [u64]) -> u32 {
        give::<BLANK>(answer, || match read(message, None) {
            Err(refusal) => refused(refusal),
            Ok(_) if out.len() < message.len() => refused(Refusal { number: 14, place: 0 }),
            Ok((_, table)) => {
                out[..message.len()].copy_from_slice(message);
                for [_, _, first, size, ..] in table {
                    out[first as usize..][..size as usize].fill(0);
                }
                [0, 0, message.len() as u64]
            }
        })
    }

    fn open(&self, opening: &Opening, out: &mut [u8], answer: &mut [u64]) -> u32 {
        give(answer, || match open(opening, out.len()) {
            Err(refusal) => {
                let state = State { written: 0, declared: 0, added: 0, closed: true };
                writer_numbers((Err(refusal), state))
            }
            Ok(header) => {
                out[..header.len()].copy_from_slice(&header);
                let written = header.len() as u64;
                let declared = opening.fields;
                let state = State { written, declared, added: 0, closed: false };
                writer_numbers((Ok(written), state))
            }
        })
    }

    fn add(&self, state: State, field: &[u8], out: &mut [u8], answer: &mut [u64]) -> u32 {
        give(answer, || {
            writer_numbers(add(state, out, || {
                let mut scan = Scan { bytes: field, at: 0 };
                scan.field()?;
                scan.end()?;
                Ok(field.to_vec())
            }))
        })
    }

    fn add_scalar(&self, state: State, value: Value, out: &mut [u8], answer: &mut [u64]) -> u32 {
        give(answer, || writer_numbers(add(state, out, || encode(value))))
    }

    fn close(&self, state: State, answer: &mut [u64]) -> u32 {
        let fits = !state.closed && state.written <= 65_536 && state.added == state.declared;
        give(answer, || {
            writer_numbers(if fits {
                (Ok(state.written), State { closed: true, ..state })
            } else {
                (no(15, 0), state)
            })
        })
    }
}
