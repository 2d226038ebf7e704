//! Sessions of the recorder.

use super::super::pair::{hex, Answer, MOST_ANSWER};
use super::super::Difference;
use super::PartsDriver;
use crate::generate::{self, Run};
use crate::peer::recordings::Recorder;
use crate::random::Random;
use crate::subject::{recorder_of, RECORD, RECORDING, SALVAGE, SHORT};
use crate::tally::Call;

/// A session as it goes on.
struct Session {
    /// The state to hand to the next call.
    state: Recorder,
    /// The usual length of the output.
    room: usize,
    /// Whether each call took the state last handed back.
    honest: bool,
}

impl PartsDriver<'_> {
    /// Records messages and closes, with all that can go wrong.
    pub(super) fn recorder(&mut self, random: &mut Random) -> Result<(), Difference> {
        let room = match random.share(&[15, 70, 14, 1]) {
            0 => random.index(100),
            1 => random.index(900),
            2 => 900 + random.index(8_000),
            _ => 70_000 + random.index(70_000),
        };
        self.pair.lend(random, 0, room);
        let numbers = generate::answer_length(random, RECORD, MOST_ANSWER);
        let (returned, answer) =
            self.pair.call(Call::NewRecorder, String::new, |subject, lent| {
                subject.new_recorder(&mut lent.answer[..numbers])
            })?;
        if returned == SHORT {
            return Ok(());
        }
        let mut run = Run::new(random);
        let mut session = Session { state: recorder_of(&answer), room, honest: true };
        for _ in 0..random.below(9) {
            self.forge(random, &mut session);
            self.add(random, &mut session, &mut run)?;
        }
        self.forge(random, &mut session);
        self.close(random, &session)
    }

    /// Now and then hands over a state that no call handed back.
    fn forge(&self, random: &mut Random, session: &mut Session) {
        if random.chance(5) {
            session.state = generate::forged_recorder(random, session.state, session.room);
            session.honest = false;
        }
    }

    /// The usual room of a session, now and then one around what is needed.
    fn room_for(&self, random: &mut Random, session: &Session, size: usize) -> usize {
        let most = self.pair.lent_one.out.len();
        if random.chance(80) {
            return session.room;
        }
        let needed = (session.state.written as usize).saturating_add(size).min(most);
        generate::any_room(random, needed).min(most)
    }

    /// Adds a message.
    fn add(
        &mut self,
        random: &mut Random,
        session: &mut Session,
        run: &mut Run,
    ) -> Result<(), Difference> {
        let mut message = std::mem::take(&mut self.message);
        generate::recorded_message(random, run, &mut message);
        let (bytes, state) = (&message.bytes, session.state);
        let room = self.room_for(random, session, bytes.len());
        let numbers = generate::answer_length(random, RECORD, MOST_ANSWER);
        let input = || format!("{state:?}\nmessage {}\nroom {room}", hex(bytes));
        let said = self.pair.call(Call::Record, input, |subject, lent| {
            subject.record(state, bytes, &mut lent.out[..room], &mut lent.answer[..numbers])
        });
        self.message = message;
        let (returned, answer) = said?;
        if returned != SHORT {
            session.state = recorder_of(&answer);
        }
        Ok(())
    }

    /// Closes; what is closed must open, and salvage must give it back.
    fn close(&mut self, random: &mut Random, session: &Session) -> Result<(), Difference> {
        let state = session.state;
        let size = (state.messages as usize).saturating_mul(8).saturating_add(10);
        let room = self.room_for(random, session, size);
        let numbers = generate::answer_length(random, RECORD, MOST_ANSWER);
        let written = self.pair.lent_one.out.clone();
        let input = || format!("{state:?}\nroom {room}\noutput {}", hex(&written));
        let (returned, answer) = self.pair.call(Call::CloseRecording, input, |subject, lent| {
            subject.close_recording(state, &mut lent.out[..room], &mut lent.answer[..numbers])
        })?;
        match returned {
            0 => self.closed(random, state, answer),
            15 if session.honest && state.written <= room as u64 => {
                Err(Difference(format!("an honest recorder does not close\n{}", input())))
            }
            _ => Ok(()),
        }
    }

    /// Opens and salvages what was closed.
    fn closed(
        &mut self,
        random: &mut Random,
        state: Recorder,
        answer: Answer,
    ) -> Result<(), Difference> {
        let bytes = self.pair.lent_one.out[..answer[2] as usize].to_vec();
        let input = || format!("closed recording {}", hex(&bytes));
        let wrong = |what: &str| Difference(format!("{what}\n{}", input()));
        let (number, opened) = self.pair.call(Call::OpenRecording, input, |subject, lent| {
            subject.open_recording(&bytes, &mut lent.answer[..RECORDING])
        })?;
        if (number, opened[2]) != (0, state.messages) {
            return Err(wrong("a closed recording does not open"));
        }
        self.pair.lend(random, 0, bytes.len());
        let (number, kept) = self.pair.call(Call::Salvage, input, |subject, lent| {
            subject.salvage(&bytes, &mut lent.out, &mut lent.answer[..SALVAGE])
        })?;
        let same = self.pair.lent_one.out.starts_with(&bytes);
        if (number, kept[2], same) != (0, bytes.len() as u64, true) {
            return Err(wrong("salvage does not give a recording back"));
        }
        Ok(())
    }
}
