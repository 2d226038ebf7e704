use super::super::{add, add_scalar, close, open, read, Refusal, State};
use super::S;

type Answer = (Result<u64, Refusal>, State);

/// The encoded ids of `S`.
const IDS: &[u8] = S.split_at(54).0.split_at(10).1;
const OPEN: State = State { written: 68, declared: 1, added: 0, closed: false };

/// What a refused opening answers.
fn unopened(number: u32, place: usize) -> Answer {
    (Err(Refusal::new(number, place)), State { written: 0, declared: 0, added: 0, closed: true })
}

/// What a refused call answers that took this state.
fn unchanged(number: u32, place: usize, state: State) -> Answer {
    (Err(Refusal::new(number, place)), state)
}

#[test]
fn the_example_is_written() {
    let mut out = [0xEE; 80];
    assert_eq!(open(IDS, 124, 2, 1, Some(1), &mut out), (Ok(68), OPEN));
    assert_eq!(out[..68], S[..68]);
    let state = State { written: 77, added: 1, ..OPEN };
    assert_eq!(add(OPEN, &S[68..], &mut out), (Ok(77), state));
    assert_eq!(close(state), (Ok(77), State { closed: true, ..state }));
    assert_eq!(out[..77], S);
    assert_eq!(out[77..], [0xEE; 3]);
    let mut again = [0xEE; 77];
    let (_, state) = open(IDS, 124, 2, 1, Some(1), &mut again);
    let (added, _) = add_scalar(state, 5, 0x3FC9_9999_9999_999A, 0, 0, 0, &mut again);
    assert_eq!((added, again), (Ok(77), S));
}

#[test]
fn openings_are_judged_in_order() {
    let mut out = [0xEE; 100];
    let cut = &IDS[..IDS.len() - 1];
    let longer = [IDS, &[0]].concat();
    assert_eq!(open(cut, 0, 9, 999, Some(9), &mut out), unopened(1, 43));
    assert_eq!(open(&[], 0, 9, 999, Some(9), &mut out), unopened(1, 0));
    assert_eq!(open(&[3], 0, 9, 999, Some(9), &mut out), unopened(4, 0));
    assert_eq!(open(&[1, 0, 0, 9, 0x80, 0, 0, 0], 0, 9, 0, None, &mut out), unopened(5, 4));
    assert_eq!(open(&longer, 0, 9, 999, Some(9), &mut out), unopened(13, 44));
    assert_eq!(open(IDS, 0, 0, 999, Some(9), &mut out), unopened(6, 0));
    assert_eq!(open(IDS, 0, 1, 999, Some(3), &mut out), unopened(4, 0));
    assert_eq!(open(IDS, 0, 1, 257, Some(2), &mut []), unopened(7, 0));
    assert_eq!(open(IDS, 0, 1, 128, Some(0), &mut []), unopened(7, 0));
    assert_eq!(open(IDS, 0, 1, u64::MAX, None, &mut []), unopened(7, 0));
    assert_eq!(open(IDS, 0, 1, 256, Some(2), &mut out[..69]), unopened(14, 0));
    assert_eq!(out, [0xEE; 100]);
    assert_eq!(open(IDS, 0, 1, 127, Some(0), &mut out[..67]).0, Ok(67));
    assert_eq!(open(IDS, 0, 1, 256, Some(2), &mut out[..70]).0, Ok(70));
    assert_eq!(out[65..70], [2, 0, 0, 1, 0]);
    assert_eq!(open(IDS, i64::MIN, 3, 0, None, &mut out).0, Ok(70));
    assert_eq!(out[54..70], [3, 0x80, 0, 0, 0, 0, 0, 0, 0, 0, 3, 2, 0, 0, 0, 0]);
}

#[test]
fn long_openings() {
    // Header length: 10 + ids + 9 + 2 + 3.
    let ids = |size: usize| {
        let characters = size - 14;
        let count = (characters as u32).to_be_bytes();
        [&[9][..], &count, &vec![b'x'; characters], &[1, 0, 0].repeat(3)].concat()
    };
    let mut out = vec![0; 80_000];
    let longest = ids(65_536 - 24);
    assert_eq!(open(&longest, 0, 1, 0, Some(1), &mut out).0, Ok(65_536));
    assert_eq!(open(&longest, 0, 1, 0, Some(1), &mut out[..65_535]), unopened(14, 0));
    assert_eq!(open(&longest, 0, 1, 0, Some(0), &mut out).0, Ok(65_535));
    assert_eq!(open(&longest, 0, 1, 0, Some(2), &mut out), unopened(8, 0));
    assert_eq!(open(&ids(65_536 - 23), 0, 1, 0, Some(1), &mut []), unopened(8, 0));
    let (length, state) = open(&longest, 0, 1, 1, Some(1), &mut out);
    assert_eq!(length, Ok(65_536));
    assert_eq!(add(state, &[0, 1], &mut out), unchanged(8, 0, state));
}

#[test]
fn adding_is_judged_in_order() {
    let mut out = [0xEE; 100];
    for state in [
        State { closed: true, ..OPEN },
        State { added: 1, ..OPEN },
        State { added: 2, ..OPEN },
        State { added: u64::MAX, declared: u64::MAX, ..OPEN },
        State { written: 101, ..OPEN },
        State { written: 65_537, ..OPEN },
        State { written: u64::MAX, ..OPEN },
    ] {
        assert_eq!(add(state, &[33], &mut out), unchanged(15, 0, state));
        assert_eq!(add_scalar(state, 99, 0, 0, 0, 0, &mut out), unchanged(15, 0, state));
    }
    assert_eq!(add(OPEN, &[33], &mut []), unchanged(15, 0, OPEN));
    let full = &mut out[..68];
    for (field, number, place) in [
        (&[][..], 1, 0),
        (&[33], 9, 0),
        (&[0], 1, 1),
        (&[0, 1, 2], 13, 2),
        (&[6, 2], 10, 1),
        (&[25, 29], 11, 1),
        (&[25, 16, 22], 12, 2),
        (&[9, 0xFF, 0, 0, 0], 5, 1),
        (&[0, 1], 14, 0),
    ] {
        assert_eq!(add(OPEN, field, full), unchanged(number, place, OPEN));
    }
    assert_eq!(out, [0xEE; 100]);
}

#[test]
fn too_long_comes_before_no_room() {
    let mut out = vec![0xEE; 80_000];
    let state = State { written: 65_535, declared: 300, added: 299, closed: false };
    assert_eq!(add(state, &[0, 1], &mut out[..65_535]), unchanged(8, 0, state));
    assert_eq!(add_scalar(state, 0, 1, 0, 0, 0, &mut out[..65_535]), unchanged(8, 0, state));
    let state = State { written: 65_534, ..state };
    assert_eq!(add(state, &[0, 1], &mut out[..65_535]), unchanged(14, 0, state));
    let after = State { written: 65_536, added: 300, ..state };
    assert_eq!(add(state, &[0, 1], &mut out), (Ok(65_536), after));
    // A field longer than any message is still judged first.
    let long = [&[11, 0, 1, 0x20, 0][..], &vec![0; 0x1_2000]].concat();
    assert_eq!(add(OPEN, &long, &mut out), unchanged(8, 0, OPEN));
    assert_eq!(
        add(OPEN, &long[..80_000.min(long.len() - 1)], &mut out).0,
        Err(Refusal::new(1, long.len() - 1))
    );
    assert_eq!(out[..65_534], [0xEE; 65_534]);
}

#[test]
fn forged_states_are_taken_as_they_are() {
    let mut out = [0xEE; 10];
    let state = State { written: 0, declared: u64::MAX, added: u64::MAX - 1, closed: false };
    let after = State { written: 2, added: u64::MAX, ..state };
    assert_eq!(add(state, &[0, 1], &mut out), (Ok(2), after));
    assert_eq!(close(after), (Ok(2), State { closed: true, ..after }));
}

#[test]
fn closing() {
    for state in [
        OPEN,
        State { added: 2, ..OPEN },
        State { added: 1, closed: true, ..OPEN },
        State { added: 1, written: 65_537, ..OPEN },
        State { added: 1, written: u64::MAX, ..OPEN },
    ] {
        assert_eq!(close(state), unchanged(15, 0, state));
    }
    let state = State { added: 1, written: 65_536, ..OPEN };
    assert_eq!(close(state), (Ok(65_536), State { closed: true, ..state }));
}

/// Whether a scalar is refused as not allowed.
fn not_allowed(kind: u8, bits: u64, unit: u8, currency: u16, display: u8) -> bool {
    let mut out = [0xEE; 100];
    let answer = add_scalar(OPEN, kind, bits, unit, currency, display, &mut out);
    match answer.0 {
        Ok(length) => assert_eq!(length, answer.1.written),
        Err(_) => assert_eq!((answer, out), (unchanged(17, 0, OPEN), [0xEE; 100])),
    }
    answer.0.is_err()
}

#[test]
fn scalars_that_do_not_fit() {
    for (kind, most) in [0xFF, 0xFFFF, 0xFFFF_FFFF].into_iter().enumerate() {
        assert!(!not_allowed(kind as u8, most, 0, 0, 0));
        assert!(not_allowed(kind as u8, most + 1, 0, 0, 0));
    }
    assert!(!not_allowed(3, u64::MAX, 0, 0, 0));
    assert!(not_allowed(6, 2, 0, 0, 0) && !not_allowed(6, 1, 0, 0, 0));
    assert!(not_allowed(7, 256, 0, 0, 0) && !not_allowed(7, 255, 0, 0, 0));
    assert!(not_allowed(8, 65_536, 0, 0, 0) && !not_allowed(8, 65_535, 0, 0, 0));
    assert!((11..=255).all(|kind| not_allowed(kind, 4, 0, 0, 0)));
    for kind in [4, 9] {
        assert!(not_allowed(kind, 0x7F80_0001, 0, 0, 0) && not_allowed(kind, 1 << 32, 0, 0, 0));
        assert!(!not_allowed(kind, 0xFF80_0000, 0, 0, 0));
    }
    for kind in [5, 10] {
        assert!(not_allowed(kind, u64::MAX, 0, 0, 0));
        assert!(!not_allowed(kind, 0xFFF0_0000_0000_0000, 0, 0, 0));
    }
}

#[test]
fn marks_that_reading_never_gives() {
    assert!(!not_allowed(9, 0, 16, 0, 21) && not_allowed(9, 0, 16, 0, 22));
    assert!(not_allowed(9, 0, 16, 1, 21) && not_allowed(9, 0, 29, 0, 0));
    assert!(!not_allowed(10, 0, 100, 8, 0) && not_allowed(10, 0, 100, 8, 1));
    assert!(not_allowed(10, 0, 100, 3, 0) && not_allowed(10, 0, 100, 1001, 0));
    assert!(!not_allowed(10, 0, 106, 1000, 27) && not_allowed(10, 0, 106, 1000, 28));
    assert!(not_allowed(10, 0, 101, 0, 0) && not_allowed(10, 0, 107, 8, 0));
    assert!(not_allowed(9, 0, 99, 1, 0) && not_allowed(9, 0, 255, 0, 0));
}

#[test]
fn a_marked_scalar_is_written() {
    let mut out = [0xEE; 81];
    let (_, state) = open(IDS, 124, 2, 1, Some(1), &mut out);
    let (added, state) = add_scalar(state, 10, 2500f64.to_bits(), 101, 978, 21, &mut out);
    assert_eq!(added, Ok(81));
    assert_eq!(out[68..], [26, 101, 3, 0xD2, 21, 0x40, 0xA3, 0x88, 0, 0, 0, 0, 0]);
    assert_eq!(close(state).0, Ok(81));
    assert_eq!(read(&out, None).map(|reading| reading.steps), Ok(10));
}
