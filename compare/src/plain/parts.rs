//! The plain model of recordings, commands, senders and the ledger.
//!
//! It makes lists, and judges an index by making it again.

use super::sums::combined;
use super::{no, read, Judged, Plain, Scan};
use crate::peer::ledger::{Ledger, Reckoned};
use crate::peer::recordings::{Recorder, Salvaged, Stop};
use crate::peer::senders::{Book, Entry};
use crate::peer::{Reading, Refusal, Value};
use crate::subject::{
    give, handed_over, one_number, reckoning_numbers, recorder_numbers, refused, salvage_numbers,
    value_numbers, Parts, COMMAND, FORGET, MESSAGE, RECORDING, TAKE,
};

/// The commands: type id, status and a letter for each field.
///
/// `s` is a string, `S` one that is not empty, `m` the state of a model, `e` an
/// error of statistics, `b` a Boolean, `h` a short, `i` an int, `l` a long, `d` a
/// double, `D` a number or duration, `T` a number or time, `n` a stream's name,
/// `*` anything. After `+` come the letters of what may be there many times.
pub const COMMANDS: [(&str, u8, &str); 18] = [
    ("FM.1", 1, "SSsSsSsSSbbb"),
    ("FM.2", 1, "DDTdii+nl"),
    ("FM.3", 1, "s*"),
    ("FM.4", 1, ""),
    ("FM.5", 1, ""),
    ("FM.6", 1, "s"),
    ("FM.7", 2, ""),
    ("FM.8", 1, "s"),
    ("FM.9", 1, ""),
    ("FS.1", 1, ""),
    ("FS.2", 1, "smhs"),
    ("FS.3", 1, ""),
    ("FS.4", 1, "sbs"),
    ("FS.5", 1, "bs"),
    ("MC.1", 1, "lms"),
    ("MC.2", 1, "lbs"),
    ("MC.3", 1, "s*"),
    ("MC.4", 1, "se"),
];

/// A number of so many bytes, most significant first.
fn bytes(number: u64, width: usize) -> Vec<u8> {
    number.to_be_bytes()[8 - width..].to_vec()
}

/// An unsigned number of all these bytes.
fn number(bytes: &[u8]) -> u64 {
    bytes.iter().fold(0, |sum, &byte| sum * 256 + u64::from(byte))
}

/// The index and trailer of messages of these lengths, with lengths of so many bytes.
fn tail(lengths: &[u64], width: usize) -> Vec<u8> {
    let mut made = Vec::new();
    let mut end = 0;
    for &length in lengths {
        made.extend(bytes(end, 4));
        made.extend(bytes(length, width));
        end += length;
    }
    made.extend(bytes(end, 4));
    made.extend(bytes(lengths.len() as u64, 4));
    made.extend(bytes(width as u64 / 2, 2));
    made
}

/// The lengths of a recording's messages and the most that one may have, if its
/// index and trailer are those of messages of these lengths.
fn lengths(recording: &[u8]) -> Judged<(Vec<u64>, u64)> {
    if recording.len() < 10 {
        return no(18, 0);
    }
    let trailer = &recording[recording.len() - 10..];
    let (width, most) = match trailer[8..] {
        [0, 1] => (2, 32_768),
        [0, 2] => (4, 65_536),
        _ => return no(18, 0),
    };
    let count = number(&trailer[4..8]);
    let size = count * (4 + width as u64) + 10;
    if count > 4096 || size > recording.len() as u64 {
        return no(18, 0);
    }
    let (messages, rest) = recording.split_at(recording.len() - size as usize);
    let entries = rest[..rest.len() - 10].chunks(4 + width);
    let lengths: Vec<u64> = entries.map(|entry| number(&entry[4..])).collect();
    if lengths.iter().sum::<u64>() != messages.len() as u64 || tail(&lengths, width) != rest {
        return no(18, 0);
    }
    Ok((lengths, most))
}

/// The refusal of something that stands at this place.
fn at(start: u64) -> impl Fn(Refusal) -> Refusal {
    move |refusal| Refusal { number: refusal.number, place: start + refusal.place }
}

/// The messages of a recording by start and length, none of them judged.
fn spans(lengths: &[u64]) -> Vec<(u64, u64)> {
    (0..lengths.len()).map(|k| (lengths[..k].iter().sum(), lengths[k])).collect()
}

/// Judges the message of this span.
fn judge(recording: &[u8], most: u64, (start, length): (u64, u64)) -> Judged<()> {
    if length > most {
        return no(8, start as usize);
    }
    read(&recording[start as usize..][..length as usize], None).map(drop).map_err(at(start))
}

/// The messages of a recording that opens.
fn opened(recording: &[u8], room: Option<usize>) -> Judged<Vec<(u64, u64)>> {
    let (lengths, most) = lengths(recording)?;
    if room.is_some_and(|room| room < 2 * lengths.len()) {
        return no(14, 0);
    }
    let mut spans = Vec::new();
    let mut start = 0;
    for length in lengths {
        judge(recording, most, (start, length))?;
        spans.push((start, length));
        start += length;
    }
    Ok(spans)
}

/// The length of the message at the front.
fn front(rest: &[u8]) -> Judged<u64> {
    let mut scan = Scan { bytes: &rest[..rest.len().min(65_536)], at: 0 };
    let (_, fields) = scan.header()?;
    for _ in 0..fields {
        scan.field()?;
    }
    Ok(scan.at as u64)
}

/// The lengths of the messages from the front, the place after them and why there.
fn divided(file: &[u8]) -> (Vec<u64>, u64, Stop) {
    let mut lengths = Vec::new();
    let mut end = 0;
    while (end as usize) < file.len() {
        if lengths.len() == 4096 {
            return (lengths, end, Stop::Full);
        }
        match front(&file[end as usize..]) {
            Err(refusal) => return (lengths, end, Stop::Refused(at(end)(refusal))),
            Ok(length) => lengths.push(length),
        }
        end += lengths[lengths.len() - 1];
    }
    (lengths, end, Stop::End)
}

/// Puts messages and their tail together, if there is room.
fn salvage(file: &[u8], out: &mut [u8]) -> Judged<Salvaged> {
    let (lengths, end, stop) = divided(file);
    let whole = [&file[..end as usize], &tail(&lengths, 4)].concat();
    if whole.len() > out.len() {
        return no(14, 0);
    }
    out[..whole.len()].copy_from_slice(&whole);
    let (length, kept) = (whole.len() as u64, lengths.len() as u64);
    Ok(Salvaged { length, kept, dropped: file.len() as u64 - end, stop })
}

/// Whether a recorder can go on with this buffer.
fn fits(state: Recorder, out: &[u8]) -> Judged<()> {
    match state.closed || state.written > out.len() as u64 {
        true => no(15, 0),
        false => Ok(()),
    }
}

/// Puts bytes where the recorder stands, if there is room.
fn append(state: Recorder, more: &[u8], out: &mut [u8]) -> Judged<u64> {
    if out.len() as u64 - state.written < more.len() as u64 {
        return no(14, 0);
    }
    out[state.written as usize..][..more.len()].copy_from_slice(more);
    Ok(state.written + more.len() as u64)
}

/// The bytes written with this message.
fn record(state: Recorder, message: &[u8], out: &mut [u8]) -> Judged<u64> {
    fits(state, out)?;
    if state.messages > 4095 {
        return no(15, 0);
    }
    read(message, None)?;
    append(state, message, out)
}

/// The length of the recording that is closed.
fn close(state: Recorder, out: &mut [u8]) -> Judged<u64> {
    fits(state, out)?;
    let (lengths, _, stop) = divided(&out[..state.written as usize]);
    if stop != Stop::End || lengths.len() as u64 != state.messages {
        return no(15, 0);
    }
    append(state, &tail(&lengths, 4), out)
}

/// Whether a field is of the code that a letter stands for.
fn of_code(letter: char, code: u32, unit: u8) -> bool {
    match letter {
        's' | 'S' | 'm' | 'e' => code == 9,
        'b' => code == 6,
        'h' => code == 1,
        'i' => code == 2,
        'l' => code == 3,
        'd' => code == 5,
        'n' => [1, 2, 3, 9].contains(&code),
        'D' => [1, 2, 3, 4, 5].contains(&code) || ([25, 26].contains(&code) && unit == 25),
        'T' => [1, 2, 3, 4, 5].contains(&code) || ([25, 26].contains(&code) && unit == 26),
        _ => true,
    }
}

/// Whether a field's bytes are what a letter stands for.
fn of_text(letter: char, text: &[u8]) -> bool {
    let words: &[&str] = match letter {
        'S' => return !text.is_empty(),
        'm' => &["started", "running", "ended", "error"],
        'e' => &["name", "novalue"],
        _ => return true,
    };
    words.iter().any(|word| word.as_bytes() == text)
}

/// The type id of a message, if it is an 8-bit string, and the refusals at its frame.
fn type_id<'a>(message: &'a [u8], reading: &Reading) -> (Option<&'a [u8]>, usize) {
    let (place, code) = reading.frames[4];
    let text = &message[place as usize..reading.frames[5].0 as usize];
    ((code == 9).then(|| &text[5..]), place as usize)
}

/// The letters of a command's fields, those after `+` as often as is told by
/// the field before them.
fn letters(message: &[u8], row: &str, place: usize, table: &[[u32; 6]]) -> Judged<String> {
    let Some((least, more)) = row.split_once('+') else {
        return Ok(row.to_owned());
    };
    if table.len() < least.len() {
        return no(21, place);
    }
    let [code, field, first, ..] = table[least.len() - 1];
    if code != 2 {
        return no(22, field as usize);
    }
    let times = Scan { bytes: message, at: first as usize }.number(4)?;
    if !(0..=256).contains(&times) {
        return no(21, place);
    }
    Ok(least.to_owned() + &more.repeat(times as usize))
}

/// Which command a message is, counted from 1.
fn command(message: &[u8]) -> Judged<u64> {
    let (reading, table) = read(message, None)?;
    let (id, place) = type_id(message, &reading);
    let found = COMMANDS.iter().position(|row| id == Some(row.0.as_bytes()));
    let Some(found) = found else {
        return no(20, place);
    };
    let (_, status, row) = COMMANDS[found];
    if message[reading.frames[6].0 as usize + 1] != status {
        return no(21, place);
    }
    let letters = letters(message, row, place, &table)?;
    if letters.len() != table.len() {
        return no(21, place);
    }
    for (letter, [code, field, ..]) in letters.chars().zip(&table) {
        let unit = message.get(*field as usize + 1).copied().unwrap_or(0);
        if !of_code(letter, *code, unit) {
            return no(22, *field as usize);
        }
    }
    for (letter, [_, field, first, size, ..]) in letters.chars().zip(&table) {
        if !of_text(letter, &message[*first as usize..][..*size as usize]) {
            return no(23, *field as usize);
        }
    }
    Ok(found as u64 + 1)
}

/// The type code and value bytes of a sender that a place holds.
fn sender_of(entry: &Entry) -> Option<(u8, Vec<u8>)> {
    let whole = entry.held && usize::from(entry.size) <= entry.id.len();
    whole.then(|| (entry.code, entry.id[..usize::from(entry.size)].to_vec()))
}

/// The place of a sender.
fn place_of(book: &Book, code: u8, id: &[u8]) -> Option<usize> {
    let sender = Some((code, id.to_vec()));
    (0..book.len()).find(|&place| sender_of(&book[place]) == sender)
}

/// The place of the message's sender and what the book holds there afterwards.
fn taken(book: &Book, message: &[u8], reading: &Reading) -> Judged<(usize, Entry)> {
    let [(start, code), (end, _)] = [reading.frames[2], reading.frames[3]];
    let head = if matches!(code, 1 | 2) { 1 } else { 5 };
    let id = &message[start as usize + head..end as usize];
    if id.len() > 32 {
        return no(26, start as usize);
    }
    let counted = reading.frames[5].0 as usize;
    let number = Scan { bytes: message, at: counted + 1 }.number(8)? as i64;
    let place = match place_of(book, code, id) {
        Some(place) if number > book[place].number => Some(place),
        Some(_) => return no(27, counted),
        None => (0..book.len()).find(|&place| !book[place].held),
    };
    let Some(place) = place else {
        return no(28, start as usize);
    };
    let mut kept = id.to_vec();
    kept.resize(32, 0);
    let id = kept.try_into().expect("32 bytes");
    let size = (end as usize - start as usize - head) as u8;
    Ok((place, Entry { held: true, code, size, id, number }))
}

/// Takes a message into the book.
fn take(book: &mut Book, message: &[u8]) -> Judged<u64> {
    let (reading, _) = read(message, None)?;
    let (place, entry) = taken(book, message, &reading)?;
    book[place] = entry;
    Ok(place as u64)
}

/// How many heads a muster brings to each deck, with the place of its field.
fn moves(
    message: &[u8],
    reading: &Reading,
    table: &[[u32; 6]],
) -> Judged<Vec<(usize, usize, i64)>> {
    let (id, place) = type_id(message, reading);
    if id != Some(b"MUS.1") {
        return no(20, place);
    }
    let heads: &[i64] = match message[reading.frames[6].0 as usize + 1] {
        1 => &[1],
        2 => &[1, -1],
        _ => &[-1],
    };
    if heads.len() != table.len() {
        return no(21, place);
    }
    for [code, field, ..] in table {
        if *code != 0 {
            return no(22, *field as usize);
        }
    }
    let mut moves = Vec::new();
    for ([_, field, first, ..], &heads) in table.iter().zip(heads) {
        let deck = Scan { bytes: message, at: *first as usize }.number(1)?;
        if !(0..16).contains(&deck) {
            return no(29, *field as usize);
        }
        moves.push((*field as usize, deck as usize, heads));
    }
    Ok(moves)
}

/// Musters a message.
fn muster(ledger: &mut Ledger, book: &mut Book, message: &[u8]) -> Judged<u64> {
    let (reading, table) = read(message, None)?;
    let moves = moves(message, &reading, &table)?;
    let mut after = ledger.map(i64::from);
    for &(field, deck, heads) in &moves {
        if heads < 0 && ledger[deck] == 0 {
            return no(30, field);
        }
        after[deck] += heads;
    }
    for &(field, deck, _) in &moves {
        if after[deck] > 65_535 {
            return no(31, field);
        }
    }
    let (place, entry) = taken(book, message, &reading)?;
    book[place] = entry;
    *ledger = after.map(|heads| heads as u16);
    Ok(place as u64)
}

/// Musters the messages of a recording.
fn reckon(recording: &[u8]) -> Judged<Reckoned> {
    let (mut ledger, mut book) = ([0; 16], [Entry::default(); 32]);
    let spans = opened(recording, None)?;
    let mut applied = 0;
    for &(start, length) in &spans {
        let message = &recording[start as usize..][..length as usize];
        applied += u64::from(muster(&mut ledger, &mut book, message).is_ok());
    }
    Ok(Reckoned { ledger, applied, refused: spans.len() as u64 - applied })
}

/// The state after a recorder's call that adds so many messages, or closes.
fn after(state: Recorder, said: Judged<u64>, next: impl Fn(u64) -> Recorder) -> [u64; 6] {
    let state = said.map_or(state, next);
    recorder_numbers((said, state))
}

impl Parts for Plain {
    fn name(&self) -> &'static str {
        "plain"
    }

    fn open_recording(&self, recording: &[u8], answer: &mut [u64]) -> u32 {
        let said = || opened(recording, None).map(|spans| spans.len() as u64);
        give::<RECORDING>(answer, || one_number(said()))
    }

    fn open_into(&self, recording: &[u8], table: &mut [u32], answer: &mut [u64]) -> u32 {
        give::<RECORDING>(answer, || {
            one_number(opened(recording, Some(table.len())).map(|spans| {
                let numbers = spans.iter().flat_map(|&(start, length)| [start, length]);
                for (entry, number) in table.iter_mut().zip(numbers) {
                    *entry = number as u32;
                }
                spans.len() as u64
            }))
        })
    }

    fn ask_message(&self, recording: &[u8], k: u64, answer: &mut [u64]) -> u32 {
        let said = || {
            let (lengths, most) = lengths(recording)?;
            match spans(&lengths).into_iter().enumerate().find(|&(number, _)| number as u64 == k) {
                Some((_, span)) => judge(recording, most, span).map(|()| span),
                None => no(16, 0),
            }
        };
        give::<MESSAGE>(answer, || match said() {
            Err(refusal) => refused(refusal),
            Ok((start, length)) => [0, 0, start, length],
        })
    }

    fn new_recorder(&self, answer: &mut [u64]) -> u32 {
        give(answer, || [0; 6])
    }

    fn record(&self, state: Recorder, message: &[u8], out: &mut [u8], answer: &mut [u64]) -> u32 {
        let next = |written| Recorder { written, messages: state.messages + 1, ..state };
        give(answer, || after(state, record(state, message, out), next))
    }

    fn close_recording(&self, state: Recorder, out: &mut [u8], answer: &mut [u64]) -> u32 {
        let next = |written| Recorder { written, closed: true, ..state };
        give(answer, || after(state, close(state, out), next))
    }

    fn salvage(&self, file: &[u8], out: &mut [u8], answer: &mut [u64]) -> u32 {
        give(answer, || salvage_numbers(salvage(file, out)))
    }

    fn command(&self, message: &[u8], answer: &mut [u64]) -> u32 {
        give::<COMMAND>(answer, || one_number(command(message)))
    }

    fn sum(&self, one: Value, two: Value, answer: &mut [u64]) -> u32 {
        give(answer, || value_numbers(combined(handed_over(one), handed_over(two), false)))
    }

    fn difference(&self, one: Value, two: Value, answer: &mut [u64]) -> u32 {
        give(answer, || value_numbers(combined(handed_over(one), handed_over(two), true)))
    }

    fn take(&self, book: &mut Book, message: &[u8], answer: &mut [u64]) -> u32 {
        give::<TAKE>(answer, || one_number(take(book, message)))
    }

    fn forget(&self, book: &mut Book, code: u8, id: &[u8], answer: &mut [u64]) -> u32 {
        give::<FORGET>(answer, || match place_of(book, code, id) {
            None => [0; 3],
            Some(place) => {
                book[place] = Entry::default();
                [0, 0, 1]
            }
        })
    }

    fn muster(
        &self,
        ledger: &mut Ledger,
        book: &mut Book,
        message: &[u8],
        answer: &mut [u64],
    ) -> u32 {
        give::<TAKE>(answer, || one_number(muster(ledger, book, message)))
    }

    fn reckon(&self, recording: &[u8], answer: &mut [u64]) -> u32 {
        give(answer, || reckoning_numbers(reckon(recording)))
    }
}
