use super::super::commands::command;
use super::super::Refusal;
use super::{sent, text, S};

/// The places of the type frame and of the first field in a command of here.
const TYPE: usize = 19;
const FIRST: usize = TYPE + 9 + 9 + 2 + 3;

/// A command with these encoded fields.
fn with(id: &[u8], status: u8, fields: &[&[u8]]) -> Vec<u8> {
    sent(&[1, 0, 9], &text(id), 1, status, fields)
}

/// Checks a command of status new.
#[track_caller]
fn is(number: u64, id: &[u8], fields: &[&[u8]]) {
    assert_eq!(command(&with(id, 1, fields)), Ok(number));
}

/// Checks the refusal of a command of status new.
#[track_caller]
fn not(id: &[u8], fields: &[&[u8]], number: u32, place: usize) {
    assert_eq!(command(&with(id, 1, fields)), Err(Refusal::new(number, place)));
}

const EMPTY: &[u8] = b"\x09\0\0\0\0";
const X: &[u8] = b"\x09\0\0\0\x01x";
const LONG: &[u8] = &[3, 0, 0, 0, 0, 0, 0, 0, 1];
const YES: &[u8] = &[6, 1];
const STARTED: &[u8] = b"\x09\0\0\0\x07started";

#[test]
fn each_command() {
    let start = [X, X, EMPTY, X, EMPTY, X, EMPTY, X, X, YES, YES, YES];
    is(1, b"FM.1", &start);
    is(3, b"FM.3", &[EMPTY, &[0, 1]]);
    is(4, b"FM.4", &[]);
    is(5, b"FM.5", &[]);
    is(6, b"FM.6", &[X]);
    assert_eq!(command(&with(b"FM.7", 2, &[])), Ok(7));
    is(8, b"FM.8", &[EMPTY]);
    is(9, b"FM.9", &[]);
    is(10, b"FS.1", &[]);
    is(11, b"FS.2", &[X, STARTED, &[1, 0, 80], EMPTY]);
    is(12, b"FS.3", &[]);
    is(13, b"FS.4", &[X, YES, EMPTY]);
    is(14, b"FS.5", &[YES, X]);
    for word in [&b"started"[..], b"running", b"ended", b"error"] {
        is(15, b"MC.1", &[LONG, &text(word), EMPTY]);
    }
    is(16, b"MC.2", &[LONG, YES, EMPTY]);
    is(17, b"MC.3", &[X, &[16, 0, 0, 0, 0]]);
    for word in [&b"name"[..], b"novalue"] {
        is(18, b"MC.4", &[X, &text(word)]);
    }
}

/// An encoded double.
fn double(value: f64) -> Vec<u8> {
    [&[5], &value.to_be_bytes()[..]].concat()
}

#[test]
fn the_manuals_model() {
    let words = [&b"MM1.1"[..], b"java", b"-jar", b"mm1.jar", b"MM1.1 5556", b"/tmp", b""];
    let mut fields: Vec<Vec<u8>> = words.into_iter().map(text).collect();
    fields.extend([text(b"out.txt"), text(b"err.txt")]);
    let mut fields: Vec<&[u8]> = fields.iter().map(|field| &field[..]).collect();
    fields.extend([YES; 3]);
    is(1, b"FM.1", &fields);
    let (zero, one) = (double(0.0), &[2, 0, 0, 0, 1][..]);
    let (time, speed) = (double(100.0), double(f64::INFINITY));
    is(2, b"FM.2", &[&time, &zero, &zero, &speed, one, one, &text(b"default"), LONG]);
    is(3, b"FM.3", &[&text(b"iat"), &double(1.0)]);
    is(6, b"FM.6", &[&text(b"dN.average")]);
    is(8, b"FM.8", &[&text(b"IDVV.14")]);
}

#[test]
fn types_and_numbers_of_fields() {
    assert_eq!(command(&S), Err(Refusal::new(20, 43)));
    for id in [&b"FM.0"[..], b"FM.10", b"FS.6", b"MC.5", b"fm.1", b"FM.4\0", b"", b"FM4"] {
        not(id, &[], 20, TYPE);
    }
    let wide = sent(&[1, 0, 9], b"\x0a\0\0\0\x04\0F\0M\0.\x004", 1, 1, &[]);
    assert_eq!(command(&wide), Err(Refusal::new(20, TYPE)));
    assert_eq!(command(&S[..70]), Err(Refusal::new(1, 70)));
    for status in [2, 3] {
        assert_eq!(command(&with(b"FM.4", status, &[])), Err(Refusal::new(21, TYPE)));
    }
    for status in [1, 3] {
        assert_eq!(command(&with(b"FM.7", status, &[])), Err(Refusal::new(21, TYPE)));
    }
    not(b"FM.8", &[], 21, TYPE);
    not(b"FM.5", &[EMPTY], 21, TYPE);
    not(b"MC.1", &[LONG, STARTED], 21, TYPE);
    not(b"FS.2", &[X, STARTED, &[1, 0, 80]], 21, TYPE);
    not(b"FM.3", &[YES, YES, YES], 21, TYPE);
}

#[test]
fn codes_and_words() {
    let right = [X, X, EMPTY, X, EMPTY, X, EMPTY, X, X, YES, YES, YES];
    for k in 0..12 {
        let place = FIRST + right[..k].concat().len();
        let mut fields = right;
        fields[k] = LONG;
        not(b"FM.1", &fields, 22, place);
        if k < 9 {
            fields[k] = EMPTY;
            match k {
                2 | 4 | 6 => is(1, b"FM.1", &fields),
                _ => not(b"FM.1", &fields, 23, place),
            }
        }
    }
    let mut fields = right;
    (fields[0], fields[1], fields[11]) = (EMPTY, EMPTY, EMPTY);
    not(b"FM.1", &fields, 22, FIRST + fields[..11].concat().len());
    fields[11] = YES;
    not(b"FM.1", &fields, 23, FIRST);
    not(b"FM.8", &[b"\x0a\0\0\0\x01\0x"], 22, FIRST);
    not(b"MC.4", &[EMPTY, X], 23, FIRST + 5);
    not(b"MC.4", &[EMPTY, EMPTY], 23, FIRST + 5);
    not(b"MC.1", &[LONG, &text(b"Started"), EMPTY], 23, FIRST + 9);
    not(b"FS.2", &[X, &text(b"starte"), &[1, 0, 0], EMPTY], 23, FIRST + 6);
    not(b"FS.2", &[X, &text(b"starte"), &[2, 0, 0, 0, 0], EMPTY], 22, FIRST + 6 + 11);
}

/// The first six fields of a run control with so many streams.
fn run(streams: i32) -> [Vec<u8>; 6] {
    let int = |value: i32| [&[2], &value.to_be_bytes()[..]].concat();
    let double = [5, 0x40, 0x59, 0, 0, 0, 0, 0, 0];
    [double.to_vec(), double.to_vec(), double.to_vec(), double.to_vec(), int(1), int(streams)]
}

/// The refusal of a run control of these fields, with this one in place of field `k`.
fn run_with(fields: &[Vec<u8>], k: usize, field: &[u8]) -> Result<u64, Refusal> {
    let mut fields: Vec<&[u8]> = fields.iter().map(|field| &field[..]).collect();
    fields[k] = field;
    command(&with(b"FM.2", 1, &fields))
}

#[test]
fn run_control() {
    let refs = |fields: &[Vec<u8>]| {
        let fields: Vec<&[u8]> = fields.iter().map(|field| &field[..]).collect();
        command(&with(b"FM.2", 1, &fields))
    };
    let wrong = Err(Refusal::new(21, TYPE));
    assert_eq!(refs(&run(0)), Ok(2));
    assert_eq!(refs(&run(1)), wrong);
    for streams in [-1, i32::MIN, i32::MAX] {
        assert_eq!(refs(&run(streams)), wrong);
    }
    let two = [&run(2)[..], &[X.to_vec(), LONG.to_vec(), vec![1, 0, 0], LONG.to_vec()]].concat();
    assert_eq!(refs(&two), Ok(2));
    assert_eq!(refs(&two[..9]), wrong);
    assert_eq!(refs(&two[..8]), wrong);
    assert_eq!(refs(&two[..5]), wrong);
    let place = |k: usize| FIRST + two[..k].concat().len();
    // The sixth is judged before the others and before the number of pairs.
    let mut sixth = two[..9].to_vec();
    (sixth[0], sixth[5]) = (X.to_vec(), vec![1, 0, 2]);
    assert_eq!(refs(&sixth), Err(Refusal::new(22, place(5) - 3)));
    (sixth[0], sixth[5]) = (X.to_vec(), two[5].clone());
    assert_eq!(refs(&sixth), wrong);
    for k in [6, 8] {
        for right in [&[1, 0, 0][..], &[2, 0, 0, 0, 0], LONG, EMPTY] {
            assert_eq!(run_with(&two, k, right), Ok(2));
        }
        for bad in [&[0, 0][..], YES, &[10, 0, 0, 0, 0]] {
            assert_eq!(run_with(&two, k, bad), Err(Refusal::new(22, place(k))));
        }
        assert_eq!(run_with(&two, k + 1, &two[4]), Err(Refusal::new(22, place(k + 1))));
    }
    assert_eq!(run_with(&two, 3, &[4, 0, 0, 0, 0]), Err(Refusal::new(22, place(3))));
    assert_eq!(run_with(&two, 4, LONG), Err(Refusal::new(22, place(4))));
}

#[test]
fn times_of_run_control() {
    let fields = run(0);
    for k in 0..3 {
        let place = FIRST + 9 * k;
        let numbers = [&[1, 0, 0][..], &[2, 0, 0, 0, 0], LONG, &[4, 0, 0, 0, 0]];
        for number in numbers {
            assert_eq!(run_with(&fields, k, number), Ok(2));
        }
        for unit in [25, 26, 16] {
            let float = [25, unit, 0, 0, 0, 0, 0];
            let double = [26, unit, 0, 0, 0, 0, 0, 0, 0, 0, 0];
            let right = unit == if k < 2 { 25 } else { 26 };
            let expected = if right { Ok(2) } else { Err(Refusal::new(22, place)) };
            assert_eq!(run_with(&fields, k, &float), expected);
            assert_eq!(run_with(&fields, k, &double), expected);
        }
        for bad in [&[0, 1][..], YES, X, &[7, 1]] {
            assert_eq!(run_with(&fields, k, bad), Err(Refusal::new(22, place)));
        }
    }
}
