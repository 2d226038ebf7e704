//! Recordings: opened, asked, blanked and written.

use sim0mq::{blanked, judge, message_of, Recorder, Recording, MOST_BYTES, MOST_MESSAGES};

use crate::{carrying, recorded, told, with, S, SHORT};

/// The index and the trailer of S, SHORT and S, in edition 2 and in edition 1.
const TAIL: &[u8; 34] = b"\0\0\0\0\0\0\0\x4D\0\0\0\x4D\0\0\0\x23\0\0\0\x70\0\0\0\x4D\
    \0\0\0\xBD\0\0\0\x03\0\x02";
const TAIL_1: &[u8; 28] = b"\0\0\0\0\0\x4D\0\0\0\x4D\0\x23\0\0\0\x70\0\x4D\
    \0\0\0\xBD\0\0\0\x03\0\x01";

/// The recording of S, SHORT and S, with this tail.
fn three(tail: &[u8]) -> Vec<u8> {
    [&S[..], SHORT, S, tail].concat()
}

/// How opening is refused.
fn not_opened(bytes: &[u8]) -> (u8, usize) {
    told(Recording::open(bytes).unwrap_err())
}

#[test]
fn a_recording_is_written_to_the_byte() {
    assert_eq!(recorded(&[S, SHORT, S]), three(TAIL));
    assert_eq!(recorded(&[]), b"\0\0\0\0\0\0\0\0\0\x02");
}

#[test]
fn both_editions_open_and_tell_their_messages() {
    for bytes in [three(TAIL), three(TAIL_1)] {
        let recording = Recording::open(&bytes).unwrap();
        assert_eq!((recording.len(), recording.is_empty()), (3, false));
        assert_eq!(recording.bytes(), bytes);
        let starts = [0, 1, 2, 3, usize::MAX].map(|k| recording.start(k));
        assert_eq!(starts, [Some(0), Some(77), Some(112), None, None]);
        assert_eq!(recording.get(0), Some(&S[..]));
        assert_eq!(recording.get(1), Some(&SHORT[..]));
        assert_eq!(recording.get(2), Some(&S[..]));
        assert_eq!((recording.get(3), recording.get(usize::MAX)), (None, None));
    }
    let none = recorded(&[]);
    let none = Recording::open(&none).unwrap();
    assert_eq!((none.len(), none.is_empty(), none.iter().next()), (0, true, None));
}

#[test]
fn messages_come_from_both_ends() {
    let bytes = recorded(&[S, SHORT, S, SHORT]);
    let recording = Recording::open(&bytes).unwrap();
    let lengths: Vec<_> = recording.iter().map(<[u8]>::len).collect();
    assert_eq!(lengths, [77, 35, 77, 35]);
    let back: Vec<_> = recording.iter().rev().map(<[u8]>::len).collect();
    assert_eq!(back, [35, 77, 35, 77]);
    let mut messages = recording.iter();
    assert_eq!((messages.next_back(), messages.len()), (Some(&SHORT[..]), 3));
    assert_eq!((messages.nth(1), messages.len()), (Some(&SHORT[..]), 1));
    assert_eq!((messages.next(), messages.next(), messages.next()), (Some(&S[..]), None, None));
    assert_eq!((&recording).into_iter().count(), 4);
}

#[test]
fn messages_are_the_recordings_own_bytes_and_outlive_its_table() {
    let bytes = recorded(&[S, SHORT]);
    let message = Recording::open(&bytes).unwrap().get(1).unwrap();
    assert_eq!(message.as_ptr(), bytes[77..].as_ptr());
    assert_eq!(message_of(&bytes, 1).unwrap().as_ptr(), message.as_ptr());
}

#[test]
fn what_is_no_recording_is_refused_by_18() {
    let whole = three(TAIL);
    for bytes in [&[][..], S, &whole[..222], &[&whole[..], &[0]].concat(), &whole[1..], TAIL] {
        assert_eq!(not_opened(bytes), (18, 0));
        assert_eq!(told(message_of(bytes, 0).unwrap_err()), (18, 0));
    }
    for place in 189..223 {
        let mut changed = whole.clone();
        changed[place] ^= 0x40;
        assert_eq!(not_opened(&changed), (18, 0), "{place}");
    }
}

#[test]
fn a_faulty_message_is_refused_at_its_place_in_the_recording() {
    let mut bytes = three(TAIL);
    bytes[112 + 64] = 4;
    bytes[112 + 68] = 33;
    assert_eq!(not_opened(&bytes), (6, 176));
    assert_eq!(told(message_of(&bytes, 2).unwrap_err()), (6, 176));
    assert_eq!(message_of(&bytes, 0), Ok(&S[..]));
    assert_eq!(message_of(&bytes, 1), Ok(&SHORT[..]));
    assert_eq!(told(message_of(&bytes, 3).unwrap_err()), (16, 0));
    assert_eq!(told(message_of(&bytes, usize::MAX).unwrap_err()), (16, 0));
    bytes[77 + 9] = b'2';
    assert_eq!(not_opened(&bytes), (3, 77 + 8));
}

#[test]
fn entries_of_no_byte_are_messages_that_end_early() {
    for (edition, width) in [(1, 6), (2, 8)] {
        let trailer = [0, 0, 0, 0, 0, 0, 0, 3, 0, edition];
        let bytes = [&vec![0; 3 * width][..], &trailer].concat();
        assert_eq!(not_opened(&bytes), (1, 0));
    }
}

#[test]
fn edition_1_has_messages_of_half_the_length() {
    for (more, expected) in [(0, Ok(1)), (1, Err((8, 0)))] {
        let text = vec![b'a'; 32_768 - 73 + more];
        let count = (text.len() as u32).to_be_bytes();
        let mut bytes = carrying(1, &[&[9], &count[..], &text].concat());
        let length = (bytes.len() as u16).to_be_bytes();
        let place = (bytes.len() as u32).to_be_bytes();
        bytes.extend([&[0; 4], &length[..], &place, &[0, 0, 0, 1, 0, 1]].concat());
        let opened = Recording::open(&bytes).map(|recording| recording.len());
        assert_eq!(opened.map_err(told), expected);
    }
}

#[test]
fn a_blanked_recording_has_each_message_blanked_and_its_own_tail() {
    let price = carrying(2, b"\x09\0\0\0\x05Alice\x1A\x65\x03\xD2\x15\x40\xA3\x88\0\0\0\0\0");
    let bytes = recorded(&[S, SHORT, &price]);
    for bytes in [bytes, three(TAIL_1), recorded(&[])] {
        let recording = Recording::open(&bytes).unwrap();
        let copy = recording.blanked();
        let opened = Recording::open(&copy).unwrap();
        assert_eq!(opened.len(), recording.len());
        for (k, message) in recording.iter().enumerate() {
            assert_eq!(opened.get(k), Some(&blanked(message).unwrap()[..]));
            assert_eq!(opened.start(k), recording.start(k));
            assert_eq!(judge(opened.get(k).unwrap()), judge(message));
        }
        let end: usize = recording.iter().map(<[u8]>::len).sum();
        assert_eq!(copy[end..], bytes[end..]);
    }
}

#[test]
fn a_refused_message_leaves_the_recorder() {
    let mut recorder = Recorder::default();
    assert!(recorder.is_empty());
    let long = vec![0; 3 * MOST_BYTES];
    let faults: [(&[u8], (u8, usize)); 4] =
        [(&[], (1, 0)), (&S[..76], (1, 76)), (&with(&[(64, 4)]), (6, 64)), (&long, (8, 0))];
    for (messages, good) in [&S[..], SHORT].into_iter().enumerate() {
        for (fault, refusal) in faults {
            assert_eq!(told(recorder.add(fault).unwrap_err()), refusal);
            assert_eq!(recorder.len(), messages);
        }
        recorder.add(good).unwrap();
    }
    assert_eq!((recorder.len(), recorder.written(), recorder.is_empty()), (2, 112, false));
    let same = recorder.clone().finish().unwrap();
    assert_eq!(recorder.finish().unwrap(), same);
    assert_eq!(same, recorded(&[S, SHORT]));
}

#[test]
fn the_longest_messages_are_recorded() {
    let text = vec![b'a'; MOST_BYTES - 73];
    let count = (text.len() as u32).to_be_bytes();
    let long = carrying(1, &[&[9], &count[..], &text].concat());
    let bytes = recorded(&[&long, S, &long]);
    let recording = Recording::open(&bytes).unwrap();
    assert_eq!((recording.get(2), recording.start(2)), (Some(&long[..]), Some(MOST_BYTES + 77)));
}

#[test]
fn as_many_messages_as_there_may_be_and_no_more() {
    let mut recorder = Recorder::new();
    for _ in 0..MOST_MESSAGES {
        recorder.add(SHORT).unwrap();
    }
    assert_eq!(told(recorder.add(SHORT).unwrap_err()), (15, 0));
    assert_eq!(told(recorder.add(&[]).unwrap_err()), (15, 0));
    assert_eq!(recorder.len(), MOST_MESSAGES);
    let bytes = recorder.finish().unwrap();
    let recording = Recording::open(&bytes).unwrap();
    assert_eq!((recording.len(), recording.start(4095)), (MOST_MESSAGES, Some(4095 * 35)));
    assert_eq!(recording.get(4095), Some(&SHORT[..]));
    assert!(recording.iter().all(|message| message == SHORT));
}
