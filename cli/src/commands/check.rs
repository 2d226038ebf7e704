//! `sim0mq check`: which command of the manual's chapter 4 a message is.

use std::io::Write;

use sim0mq::{Command, Recording, Refusal};

use super::{refused, stdout};
use crate::args::{Given, Opt};
use crate::failure::{say, Failure};
use crate::files::{self, MOST_RECORDING};
use crate::kind::{kind, Kind};
use crate::{json, progress};

/// Says which command the message is, or each message of the recording.
pub fn run(given: &Given) -> Result<(), Failure> {
    let bytes = files::read(given.file(), MOST_RECORDING)?;
    progress::stage("judging", "", 0);
    match kind(&bytes).map_err(refused(given))? {
        Kind::Message => one(given, &bytes),
        Kind::Recording(recording) => each(given, &recording),
    }
}

/// Says which command a message is.
fn one(given: &Given, message: &[u8]) -> Result<(), Failure> {
    let command = sim0mq::command(message).map_err(refused(given))?;
    let mut out = stdout();
    match given.has(Opt::Json) {
        true => writeln!(out, "{{{}}}", members(command))?,
        false => writeln!(out, "{} {command}", command.id())?,
    }
    Ok(out.flush()?)
}

/// Says which command each message of a recording is, or why it is none.
fn each(given: &Given, recording: &Recording<'_>) -> Result<(), Failure> {
    let (json, mut out, mut wrong) = (given.has(Opt::Json), stdout(), 0);
    progress::stage("checking", "messages", recording.len());
    for (k, message) in recording.iter().enumerate() {
        let said = sim0mq::command(message);
        wrong += usize::from(said.is_err());
        match json {
            true => write!(out, "{}{}", if k == 0 { "[" } else { ",\n " }, object(k, said))?,
            false => writeln!(out, "{k} {}", line(said))?,
        }
        progress::done(k + 1);
    }
    if json {
        writeln!(out, "{}", if recording.is_empty() { "[]" } else { "]" })?;
    }
    out.flush()?;
    progress::stop();
    match wrong {
        0 => Ok(()),
        _ => {
            let name = files::shown(given.file());
            say(&format!("{name}: {wrong} of {} messages are no commands", recording.len()));
            Err(Failure::Told)
        }
    }
}

/// The command, or the refusal.
fn line(said: Result<Command, Refusal>) -> String {
    match said {
        Ok(command) => format!("{} {command}", command.id()),
        Err(refusal) => format!("refused {} at {}", refusal.number(), refusal.place()),
    }
}

/// The same of message k as JSON.
fn object(k: usize, said: Result<Command, Refusal>) -> String {
    let said = said.map_or_else(json::refusal, members);
    format!("{{\"k\": {k}, {said}}}")
}

/// The members of a command.
fn members(command: Command) -> String {
    let name = json::text(&command.to_string());
    format!("\"command\": {}, \"name\": {name}", json::text(command.id()))
}
