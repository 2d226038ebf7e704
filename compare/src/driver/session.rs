//! Writing sessions and rewritings.

use super::pair::{hex, MOST_ANSWER};
use super::{Answer, Difference, Driver};
use crate::generate::{self, FieldFault};
use crate::peer::{self, State};
use crate::random::Random;
use crate::subject::{state_of, Opening, READ, SHORT, WRITE};
use crate::tally::Call;

/// A session as it goes on.
struct Session {
    /// The state to hand to the next call.
    state: State,
    /// The usual length of the output.
    room: usize,
    /// Whether each call took the state last handed back.
    honest: bool,
}

impl Driver<'_> {
    /// Opens a message, adds to it and closes it, with all that can go wrong.
    pub(super) fn session(&mut self, random: &mut Random) -> Result<(), Difference> {
        let Some(mut session) = self.opening(random)? else {
            return Ok(());
        };
        let declared = session.state.declared;
        let calls = match random.share(&[75, 20, 5]) {
            0 => declared.min(10),
            1 => random.below(declared.min(10) + 3),
            _ => declared.min(300),
        };
        for _ in 0..calls {
            if random.chance(5) {
                session.state = generate::forged(random, session.state, session.room);
                session.honest = false;
            }
            self.adding(random, &mut session)?;
        }
        if random.chance(10) {
            self.adding(random, &mut session)?;
        }
        self.closing(random, session)
    }

    /// Opens with a fresh buffer; nothing where the answer lent was too short.
    fn opening(&mut self, random: &mut Random) -> Result<Option<Session>, Difference> {
        let mut ids = std::mem::take(&mut self.ids);
        ids.clear();
        generate::header_ids(random, &mut ids);
        let opening = Opening {
            ids: &ids,
            number: generate::message_number(random),
            status: generate::status(random),
            fields: generate::declared(random),
            kind: generate::count_kind(random),
        };
        let header =
            22 + ids.len() + [2, 1, 2, 4][opening.kind.map_or(0, |kind| 1 + kind.min(2)) as usize];
        let room = match random.share(&[30, 50, 20]) {
            0 => generate::room(random, header),
            1 => header + random.index(600),
            _ => header + random.index(generate::MOST_ROOM - 1000 - header.min(71_000)),
        };
        self.pair.lend(random, 0, room);
        let numbers = generate::answer_length(random, WRITE, MOST_ANSWER);
        let input = || format!("{opening:?}\nids {}\nroom {room}", hex(opening.ids));
        let (returned, answer) = self.pair.call(Call::Open, input, |subject, lent| {
            subject.open(&opening, &mut lent.out[..room], &mut lent.answer[..numbers])
        })?;
        self.ids = ids;
        let session = Session { state: state_of(&answer), room, honest: returned == 0 };
        Ok((returned != SHORT).then_some(session))
    }

    /// Adds an encoded field or a scalar.
    fn adding(&mut self, random: &mut Random, session: &mut Session) -> Result<(), Difference> {
        let (returned, answer) = if random.chance(50) {
            self.add_encoded(random, session)?
        } else {
            self.add_scalar(random, session)?
        };
        if returned != SHORT {
            session.state = state_of(&answer);
        }
        Ok(())
    }

    /// Adds an encoded field, sound or damaged, of any size.
    fn add_encoded(
        &mut self,
        random: &mut Random,
        session: &Session,
    ) -> Result<(u32, Answer), Difference> {
        let mut field = std::mem::take(&mut self.field);
        field.clear();
        encoded(random, session.state, &mut field);
        let state = session.state;
        let room = self.room_for(random, session, field.len());
        let numbers = generate::answer_length(random, WRITE, MOST_ANSWER);
        let input = || format!("{state:?}\nfield {}\nroom {room}", hex(&field));
        let answered = self.pair.call(Call::Add, input, |subject, lent| {
            subject.add(state, &field, &mut lent.out[..room], &mut lent.answer[..numbers])
        })?;
        self.field = field;
        Ok(answered)
    }

    /// Adds a scalar of any kind.
    fn add_scalar(
        &mut self,
        random: &mut Random,
        session: &Session,
    ) -> Result<(u32, Answer), Difference> {
        let value = generate::scalar(random);
        let state = session.state;
        let size = random.between(1, 13) as usize;
        let room = self.room_for(random, session, size);
        let numbers = generate::answer_length(random, WRITE, MOST_ANSWER);
        let input = || format!("{state:?}\n{value:?}\nroom {room}");
        self.pair.call(Call::AddScalar, input, |subject, lent| {
            subject.add_scalar(state, value, &mut lent.out[..room], &mut lent.answer[..numbers])
        })
    }

    /// The usual room of a session, now and then one around what is needed.
    fn room_for(&self, random: &mut Random, session: &Session, size: usize) -> usize {
        let most = self.pair.lent_one.out.len();
        if random.chance(85) {
            return session.room;
        }
        let needed = (session.state.written as usize).saturating_add(size).min(most);
        generate::room(random, needed).min(most)
    }

    /// Closes and reads what was written; an honest session must be accepted.
    fn closing(&mut self, random: &mut Random, session: Session) -> Result<(), Difference> {
        let state = session.state;
        let numbers = generate::answer_length(random, WRITE, MOST_ANSWER);
        let (returned, answer) = self.pair.call(
            Call::Close,
            || format!("{state:?}"),
            |subject, lent| subject.close(state, &mut lent.answer[..numbers]),
        )?;
        let length = answer[2] as usize;
        if returned != 0 || length > self.pair.lent_one.out.len() {
            return Ok(());
        }
        let message = self.pair.lent_one.out[..length].to_vec();
        let input = || format!("written message {}", hex(&message));
        let (number, read) = self.pair.call(Call::Judge, input, |subject, lent| {
            subject.judge(&message, &mut lent.answer[..READ])
        })?;
        if session.honest && (number != 0 || read[3] != state.declared) {
            return Err(Difference(format!("a written message is not read back\n{}", input())));
        }
        Ok(())
    }

    /// Writes a sound message again from its parts; both must be equal.
    pub(super) fn rewriting(&mut self, random: &mut Random) -> Result<(), Difference> {
        let mut message = std::mem::take(&mut self.message);
        generate::sound_message(random, &mut message);
        let rewritten = self.rewrite(random, &message.bytes);
        self.message = message;
        rewritten
    }

    fn rewrite(&mut self, random: &mut Random, bytes: &[u8]) -> Result<(), Difference> {
        let input = || format!("rewriting {}", hex(bytes));
        let wrong = |what: &str| Difference(format!("{what}\n{}", input()));
        let mut table = [0; peer::PER_FIELD * 256];
        let reading = peer::read(bytes, Some(&mut table))
            .map_err(|refusal| wrong(&format!("a sound message is {refusal}")))?;
        let places = reading.frames.map(|(place, _)| place as usize);
        let opening = parts(bytes, &places, reading.fields, reading.frames[7].1);
        self.pair.lend(random, 0, bytes.len());
        let (_, mut answer) = self.pair.call(Call::Open, input, |subject, lent| {
            subject.open(&opening, &mut lent.out, &mut lent.answer)
        })?;
        for entry in table.chunks_exact(peer::PER_FIELD).take(reading.fields as usize) {
            let field = &bytes[entry[1] as usize..(entry[2] + entry[3]) as usize];
            let state = state_of(&answer);
            answer = self
                .pair
                .call(Call::Add, input, |subject, lent| {
                    subject.add(state, field, &mut lent.out, &mut lent.answer)
                })?
                .1;
        }
        let state = state_of(&answer);
        let (returned, answer) = self
            .pair
            .call(Call::Close, input, |subject, lent| subject.close(state, &mut lent.answer))?;
        if returned != 0 || &self.pair.lent_one.out[..answer[2] as usize] != bytes {
            return Err(wrong("a rewritten message is not the same"));
        }
        Ok(())
    }
}

/// The opening that an accepted message was written with.
fn parts<'a>(bytes: &'a [u8], places: &[usize; 8], fields: u64, kind: u8) -> Opening<'a> {
    let number = bytes[places[5] + 1..places[6]].iter();
    Opening {
        ids: &bytes[places[1]..places[5]],
        number: number.fold(0, |number, &byte| number << 8 | i64::from(byte)),
        status: bytes[places[6] + 1],
        fields,
        kind: Some(kind),
    }
}

/// Makes an encoded field for a session in this state.
fn encoded(random: &mut Random, state: State, field: &mut Vec<u8>) {
    match random.share(&[60, 22, 6, 6, 6]) {
        0 => generate::field(random, None, field),
        1 => {
            let fault = random.pick(&FieldFault::ALL);
            generate::field(random, Some(fault), field);
        }
        2 => {
            // Around the length at which the message is too long.
            let left = 65_536_u64.saturating_sub(state.written).max(40) as usize;
            let size = left + random.index(5) - 2;
            generate::sized_field(random, size, field);
        }
        3 => {
            generate::field(random, None, field);
            let extra = random.between(1, 3) as usize;
            random.bytes(extra, field);
        }
        _ => {
            generate::field(random, None, field);
            let kept = random.index(field.len() + 1);
            field.truncate(kept);
        }
    }
}
