use super::super::recordings::{
    add, ask, close, open, open_into, salvage, Recorder, Salvaged, Stop, MOST_MESSAGES,
};
use super::super::Refusal;
use super::{changed, with_payload, S};

/// The least message: four ids of 16 bits and no field.
const LEAST: [u8; 35] = *b"\x09\0\0\0\x05SIM01\x01\0\0\x01\0\0\x01\0\0\x01\0\0\
    \x03\0\0\0\0\0\0\0\0\0\x01\0\0";

/// The recording of these messages in this edition.
fn recording(messages: &[&[u8]], edition: u16) -> Vec<u8> {
    let mut bytes = messages.concat();
    let place = bytes.len() as u32;
    let mut start = 0u32;
    for message in messages {
        let length = (message.len() as u32).to_be_bytes();
        bytes.extend(start.to_be_bytes());
        bytes.extend(&length[if edition == 1 { 2 } else { 0 }..]);
        start += message.len() as u32;
    }
    bytes.extend(place.to_be_bytes());
    bytes.extend((messages.len() as u32).to_be_bytes());
    bytes.extend(edition.to_be_bytes());
    bytes
}

/// `S` with so many bytes after its header, all in one field of bytes.
fn sized(bytes: usize) -> Vec<u8> {
    [&S[..68], &[11], &(bytes as u32 - 5).to_be_bytes(), &vec![7; bytes - 5]].concat()
}

/// Checks how a recording is refused, with a table and without.
#[track_caller]
fn refused(recording: &[u8], number: u32, place: u64) {
    let refusal = Err(Refusal { number, place });
    assert_eq!(open(recording), refusal);
    let mut table = [9; 100];
    assert_eq!(open_into(recording, &mut table), refusal);
    assert_eq!(table, [9; 100]);
}

/// A recording with the byte at this place, counted from its end, changed.
fn spoiled(recording: &[u8], from_end: usize, byte: u8) -> Vec<u8> {
    let mut bytes = recording.to_vec();
    let place = bytes.len() - from_end;
    bytes[place] = byte;
    bytes
}

#[test]
fn to_the_byte() {
    let three = [&S[..], &LEAST, &S];
    let second = recording(&three, 2);
    assert_eq!(second.len(), 223);
    assert_eq!(second[189..197], *b"\0\0\0\0\0\0\0\x4d");
    assert_eq!(second[205..], *b"\0\0\0\x70\0\0\0\x4d\0\0\0\xbd\0\0\0\x03\0\x02");
    let first = recording(&three, 1);
    assert_eq!(first.len(), 217);
    assert_eq!(first[201..], *b"\0\0\0\x70\0\x4d\0\0\0\xbd\0\0\0\x03\0\x01");
    for bytes in [first, second] {
        let mut table = [7; 8];
        assert_eq!(open(&bytes), Ok(3));
        assert_eq!(open_into(&bytes, &mut table), Ok(3));
        assert_eq!(table, [0, 77, 77, 35, 112, 77, 7, 7]);
        assert_eq!(ask(&bytes, 1), Ok((77, 35)));
        assert_eq!(ask(&bytes, 2), Ok((112, 77)));
        for k in [3, 1 << 32, u64::MAX] {
            assert_eq!(ask(&bytes, k), Err(Refusal::new(16, 0)));
        }
        let mut short = [7; 5];
        assert_eq!(open_into(&bytes, &mut short), Err(Refusal::new(14, 0)));
        assert_eq!(short, [7; 5]);
    }
    assert_eq!(open(&recording(&[], 1)), Ok(0));
    assert_eq!(open_into(&recording(&[], 2), &mut []), Ok(0));
    assert_eq!(ask(&recording(&[], 2), 0), Err(Refusal::new(16, 0)));
}

#[test]
fn trailer_and_index() {
    let whole = recording(&[&S, &LEAST, &S], 2);
    for length in [0, 9] {
        refused(&whole[..length], 18, 0);
    }
    refused(&whole[..222], 18, 0);
    refused(&[&whole[..], &[0]].concat(), 18, 0);
    refused(&[&[0], &whole[..]].concat(), 18, 0);
    for (from_end, byte) in [(1, 0), (1, 1), (1, 3), (2, 1), (3, 2), (3, 4), (7, 188), (10, 1)] {
        refused(&spoiled(&whole, from_end, byte), 18, 0);
        assert_eq!(ask(&spoiled(&whole, from_end, byte), 0), Err(Refusal::new(18, 0)));
    }
    // Each entry: a start or a length that leaves a gap, laps over or ends elsewhere.
    for from_end in [11, 15, 19, 23, 27, 31] {
        for byte in [0x4c, 0x4e] {
            refused(&spoiled(&whole, from_end, byte), 18, 0);
        }
    }
    // Two entries in the other order still have every byte once.
    let mut swapped = recording(&[&LEAST, &LEAST], 2);
    swapped[70..86].rotate_left(8);
    refused(&swapped, 18, 0);
    // Entries may say nothing of a message that is not there: no bytes are no message.
    refused(&recording(&[&S, &[]], 2), 1, 77);
    refused(b"\0\0\0\x01\0\0\0\0\0\x02", 18, 0);
    refused(b"x\0\0\0\x01\0\0\0\0\0\x02", 18, 0);
}

#[test]
fn a_messages_own() {
    let wrong = changed(64, 4);
    let bytes = recording(&[&S, &wrong, &S[..76]], 2);
    refused(&bytes, 6, 77 + 64);
    assert_eq!(ask(&bytes, 0), Ok((0, 77)));
    assert_eq!(ask(&bytes, 1), Err(Refusal::new(6, 77 + 64)));
    assert_eq!(ask(&bytes, 2), Err(Refusal::new(1, 154 + 76)));
    assert_eq!(ask(&bytes, 3), Err(Refusal::new(16, 0)));
    assert_eq!(ask(&spoiled(&bytes, 1, 9), 3), Err(Refusal::new(18, 0)));
    // 14 comes before the messages.
    assert_eq!(open_into(&bytes, &mut [0; 5]), Err(Refusal::new(14, 0)));
    let longer = [&S[..], &[0]].concat();
    refused(&recording(&[&LEAST, &longer], 1), 13, 35 + 77);
}

#[test]
fn message_40_without_the_first_39() {
    let mut messages = vec![changed(0, 8); 40];
    messages.extend([S.to_vec(), changed(0, 8)]);
    let messages: Vec<&[u8]> = messages.iter().map(|message| &message[..]).collect();
    for edition in [1, 2] {
        let bytes = recording(&messages, edition);
        assert_eq!(ask(&bytes, 40), Ok((40 * 77, 77)));
        assert_eq!(ask(&bytes, 39), Err(Refusal::new(2, 39 * 77)));
        refused(&bytes, 2, 0);
    }
}

#[test]
fn old_recordings_with_other_currencies() {
    let fuel = |currency: u16| {
        let [high, low] = currency.to_be_bytes();
        with_payload(&[26, 100, high, low, 0, 0, 0, 0, 0, 0, 0, 0])
    };
    for edition in [1, 2] {
        assert_eq!(open(&recording(&[&S, &fuel(1000)], edition)), Ok(2));
        refused(&recording(&[&S, &fuel(3)], edition), 19, 77 + 70);
    }
}

#[test]
fn limits_of_editions() {
    let (old, over) = (sized(32_700), sized(32_701));
    assert_eq!(old.len(), 32_768);
    assert_eq!(open(&recording(&[&S, &old], 1)), Ok(2));
    refused(&recording(&[&S, &over], 1), 8, 77);
    assert_eq!(ask(&recording(&[&S, &over], 1), 1), Err(Refusal::new(8, 77)));
    assert_eq!(open(&recording(&[&S, &over], 2)), Ok(2));
    let (most, past) = (sized(65_536 - 68), sized(65_537 - 68));
    assert_eq!(open(&recording(&[&most, &S], 2)), Ok(2));
    refused(&recording(&[&LEAST, &past], 2), 8, 35);
}

#[test]
fn most_messages() {
    for edition in [1, 2] {
        let most = vec![&LEAST[..]; 4096];
        assert_eq!(open(&recording(&most, edition)), Ok(4096));
        assert_eq!(ask(&recording(&most, edition), 4095), Ok((4095 * 35, 35)));
        refused(&recording(&vec![&LEAST[..]; 4097], edition), 18, 0);
    }
}

#[test]
fn recorded() {
    let mut out = [0xEE; 240];
    let (said, one) = add(Recorder::NEW, &S, &mut out);
    assert_eq!((said, one), (Ok(77), Recorder { written: 77, messages: 1, closed: false }));
    let refused = add(one, &changed(64, 4), &mut out);
    assert_eq!(refused, (Err(Refusal::new(6, 64)), one));
    let (said, two) = add(one, &LEAST, &mut out);
    assert_eq!(said, Ok(112));
    let (said, three) = add(two, &S, &mut out);
    assert_eq!(said, Ok(189));
    let (said, closed) = close(three, &mut out);
    assert_eq!((said, closed), (Ok(223), Recorder { written: 223, closed: true, ..three }));
    assert_eq!(out[..223], recording(&[&S, &LEAST, &S], 2));
    assert_eq!(out[223..], [0xEE; 17]);
    let before = out;
    assert_eq!(add(closed, &S, &mut out), (Err(Refusal::new(15, 0)), closed));
    assert_eq!(close(closed, &mut out), (Err(Refusal::new(15, 0)), closed));
    assert_eq!(add(three, &S, &mut out[..188]), (Err(Refusal::new(15, 0)), three));
    assert_eq!(add(three, &S, &mut out), (Err(Refusal::new(14, 0)), three));
    assert_eq!(add(three, &S[..9], &mut out[..189]), (Err(Refusal::new(1, 9)), three));
    assert_eq!(close(three, &mut out[..222]), (Err(Refusal::new(14, 0)), three));
    assert_eq!(out, before);
    assert_eq!(close(Recorder::NEW, &mut out).0, Ok(10));
    assert_eq!(out[..10], recording(&[], 2));
}

#[test]
fn forged_recorders() {
    let mut out = [&S[..], &LEAST, &[0; 60]].concat();
    let forged = |written, messages| Recorder { written, messages, closed: false };
    let before = out.clone();
    for state in [forged(112, 1), forged(112, 3), forged(111, 2), forged(113, 2), forged(0, 1)] {
        assert_eq!(close(state, &mut out), (Err(Refusal::new(15, 0)), state));
    }
    for state in [forged(u64::MAX, 0), forged(173, 2), forged(0, u64::MAX), forged(0, 4096)] {
        assert_eq!(add(state, &S, &mut out), (Err(Refusal::new(15, 0)), state));
        assert_eq!(close(state, &mut out), (Err(Refusal::new(15, 0)), state));
    }
    assert_eq!(out, before);
    assert_eq!(add(forged(0, 4095), &LEAST, &mut out), (Ok(35), forged(35, 4096)));
    out.copy_from_slice(&before);
    assert_eq!(close(forged(112, 2), &mut out).0, Ok(138));
    assert_eq!(open(&out[..138]), Ok(2));
}

#[test]
fn a_full_recorder() {
    let messages = vec![&LEAST[..]; MOST_MESSAGES as usize];
    let whole = recording(&messages, 2);
    let mut out = vec![0; whole.len()];
    let mut state = Recorder::NEW;
    for message in messages {
        let (said, next) = add(state, message, &mut out);
        assert_eq!(said, Ok(next.written));
        state = next;
    }
    assert_eq!(add(state, &LEAST, &mut out), (Err(Refusal::new(15, 0)), state));
    assert_eq!(close(state, &mut out).0, Ok(whole.len() as u64));
    assert_eq!(out, whole);
    // 4,097 messages by a forged state are none that closing takes.
    let mut long = [&LEAST.repeat(4097)[..], &vec![0; 40_000]].concat();
    for messages in [4096, 4097] {
        let state = Recorder { written: 4097 * 35, messages, closed: false };
        assert_eq!(close(state, &mut long), (Err(Refusal::new(15, 0)), state));
    }
}

/// What salvage reports and writes.
fn salvaged(file: &[u8]) -> (Salvaged, Vec<u8>) {
    let mut out = vec![0xEE; file.len() + 40];
    let report = salvage(file, &mut out).expect("room");
    let rest = out.split_off(report.length as usize);
    assert!(rest.iter().all(|&byte| byte == 0xEE));
    (report, out)
}

#[test]
fn a_cut_file() {
    let whole = recording(&[&S, &LEAST, &S], 2);
    let (report, out) = salvaged(&whole[..200]);
    let stop = Stop::Refused(Refusal::new(2, 189));
    assert_eq!(report, Salvaged { length: 223, kept: 3, dropped: 11, stop });
    assert_eq!(out, whole);
    let (report, out) = salvaged(&whole[..100]);
    let stop = Stop::Refused(Refusal::new(1, 100));
    assert_eq!(report, Salvaged { length: 95, kept: 1, dropped: 23, stop });
    assert_eq!(out, recording(&[&S], 2));
    let (report, out) = salvaged(&whole[..112]);
    assert_eq!(report, Salvaged { length: 138, kept: 2, dropped: 0, stop: Stop::End });
    assert_eq!(out, recording(&[&S, &LEAST], 2));
    let (report, out) = salvaged(&[]);
    assert_eq!(report, Salvaged { length: 10, kept: 0, dropped: 0, stop: Stop::End });
    assert_eq!(out, recording(&[], 2));
    let damaged = [&S[..], &changed(68, 33), &S].concat();
    let (report, _) = salvaged(&damaged);
    let stop = Stop::Refused(Refusal::new(9, 77 + 68));
    assert_eq!(report, Salvaged { length: 95, kept: 1, dropped: 154, stop });
}

#[test]
fn an_intact_file() {
    let whole = recording(&[&S, &LEAST, &S], 2);
    let stop = Stop::Refused(Refusal::new(2, 189));
    let report = Salvaged { length: 223, kept: 3, dropped: 34, stop };
    assert_eq!(salvaged(&whole), (report, whole.clone()));
    let old = recording(&[&S, &LEAST, &S], 1);
    assert_eq!(salvaged(&old), (Salvaged { dropped: 28, ..report }, whole.clone()));
    let mut short = [0xEE; 222];
    assert_eq!(salvage(&whole, &mut short), Err(Refusal::new(14, 0)));
    assert_eq!(short, [0xEE; 222]);
}

#[test]
fn salvage_at_its_limits() {
    let most = recording(&vec![&LEAST[..]; 4096], 2);
    let (report, out) = salvaged(&most);
    assert_eq!((report.kept, report.dropped, report.stop), (4096, 8 * 4096 + 10, Stop::Full));
    assert_eq!(out, most);
    let mut out = vec![0; most.len()];
    let cut = salvage(&most[..4096 * 35], &mut out).expect("room");
    assert_eq!((cut.dropped, cut.stop), (0, Stop::End));
    assert_eq!(out, most);
    // A message of the greatest length is kept; of one that is longer the refusal
    // is that of its first 65,536 bytes, which end too early.
    let (most, past) = (sized(65_536 - 68), sized(65_537 - 68));
    let (report, _) = salvaged(&[&S[..], &most].concat());
    assert_eq!((report.kept, report.stop), (2, Stop::End));
    let (report, _) = salvaged(&[&S[..], &past, &S].concat());
    let stop = Stop::Refused(Refusal::new(1, 77 + 65_536));
    assert_eq!((report.kept, report.stop), (1, stop));
}
