//! The writer: open, add fields one by one, close.

use super::header::{byte, id, FRAME_0};
use super::scalar::{self, Value};
use super::{payload, Refusal, MOST_BYTES, MOST_FIELDS};

/// Where a message being written stands; any numbers may be handed in.
#[derive(Clone, Copy, Debug, PartialEq, Eq)]
pub struct State {
    /// Bytes written so far.
    pub written: u64,
    /// Fields declared at the opening.
    pub declared: u64,
    /// Fields added so far.
    pub added: u64,
    /// Whether nothing more can be added.
    pub closed: bool,
}

impl State {
    /// The state that a refused opening hands back.
    pub const REFUSED: State = State { written: 0, declared: 0, added: 0, closed: true };
}

/// The type code of the count where none is stated.
const USUAL_KIND: u8 = 2;

/// Opens a message: writes its header and answers the length so far.
#[must_use = "the state is needed to go on"]
pub fn open(
    ids: &[u8],
    number: i64,
    status: u8,
    fields: u64,
    kind: Option<u8>,
    out: &mut [u8],
) -> (Result<u64, Refusal>, State) {
    let kind = kind.unwrap_or(USUAL_KIND);
    match judge_opening(ids, status, fields, kind, out.len()) {
        Err(refusal) => (Err(refusal), State::REFUSED),
        Ok(length) => {
            write_header(ids, number, status, fields, kind, &mut out[..length]);
            let written = length as u64;
            (Ok(written), State { written, declared: fields, added: 0, closed: false })
        }
    }
}

/// Adds one encoded field and answers the length so far.
#[must_use = "the state is needed to go on"]
pub fn add(state: State, field: &[u8], out: &mut [u8]) -> (Result<u64, Refusal>, State) {
    let added =
        fits(state, out).and_then(|()| judge_alone(field)).and_then(|()| append(state, field, out));
    hand_back(state, added)
}

/// Adds one scalar and answers the length so far.
#[must_use = "the state is needed to go on"]
pub fn add_scalar(
    state: State,
    kind: u8,
    bits: u64,
    unit: u8,
    currency: u16,
    display: u8,
    out: &mut [u8],
) -> (Result<u64, Refusal>, State) {
    let added = fits(state, out).and_then(|()| {
        let value = Value { kind, bits, unit, currency, display };
        let (field, length) = scalar::encode(value).ok_or(Refusal::new(17, 0))?;
        append(state, &field[..length], out)
    });
    hand_back(state, added)
}

/// Closes a message and answers its length.
#[must_use = "a refused closing leaves the message open"]
pub fn close(state: State) -> (Result<u64, Refusal>, State) {
    let State { written, declared, added, closed } = state;
    if closed || written > MOST_BYTES as u64 || added != declared {
        return (Err(Refusal::new(15, 0)), state);
    }
    (Ok(written), State { closed: true, ..state })
}

/// Judges an opening and answers the header's length.
fn judge_opening(
    ids: &[u8],
    status: u8,
    fields: u64,
    kind: u8,
    room: usize,
) -> Result<usize, Refusal> {
    let mut place = 0;
    for _ in 0..4 {
        let code = byte(ids, place)?;
        place = id(ids, place, code)?;
    }
    if place < ids.len() {
        return Err(Refusal::new(13, place));
    }
    if !(1..=3).contains(&status) {
        return Err(Refusal::new(6, 0));
    }
    let most = match kind {
        0 => i8::MAX as u64,
        1 | 2 => MOST_FIELDS,
        _ => return Err(Refusal::new(4, 0)),
    };
    if fields > most {
        return Err(Refusal::new(7, 0));
    }
    let length = FRAME_0.len() + ids.len() + 9 + 2 + 1 + (1 << kind);
    if length > MOST_BYTES {
        return Err(Refusal::new(8, 0));
    }
    if length > room {
        return Err(Refusal::new(14, 0));
    }
    Ok(length)
}

/// Writes a judged header over the whole of `out`.
fn write_header(ids: &[u8], number: i64, status: u8, fields: u64, kind: u8, out: &mut [u8]) {
    let (magic, out) = out.split_at_mut(FRAME_0.len());
    magic.copy_from_slice(&FRAME_0);
    let (frames, out) = out.split_at_mut(ids.len());
    frames.copy_from_slice(ids);
    out[0] = 3;
    out[1..9].copy_from_slice(&number.to_be_bytes());
    out[9] = 0;
    out[10] = status;
    out[11] = kind;
    let width = 1 << kind;
    out[12..].copy_from_slice(&fields.to_be_bytes()[8 - width..]);
}

/// Whether a field can be added in this state to this buffer.
fn fits(state: State, out: &[u8]) -> Result<(), Refusal> {
    let most = MOST_BYTES.min(out.len()) as u64;
    if state.closed || state.added >= state.declared || state.written > most {
        return Err(Refusal::new(15, 0));
    }
    Ok(())
}

/// Judges one encoded field as a payload by itself.
fn judge_alone(field: &[u8]) -> Result<(), Refusal> {
    let end = payload::judge(field, 0)?.end();
    if end < field.len() {
        return Err(Refusal::new(13, end));
    }
    Ok(())
}

/// Writes a judged field where the state says and answers the state after it.
fn append(state: State, field: &[u8], out: &mut [u8]) -> Result<State, Refusal> {
    let start = state.written as usize;
    let end = start + field.len();
    if end > MOST_BYTES {
        return Err(Refusal::new(8, 0));
    }
    let place = out.get_mut(start..end).ok_or(Refusal::new(14, 0))?;
    place.copy_from_slice(field);
    Ok(State { written: end as u64, added: state.added + 1, ..state })
}

/// The answer and the state of an adding: the one taken where it is refused.
fn hand_back(taken: State, added: Result<State, Refusal>) -> (Result<u64, Refusal>, State) {
    match added {
        Ok(state) => (Ok(state.written), state),
        Err(refusal) => (Err(refusal), taken),
    }
}
