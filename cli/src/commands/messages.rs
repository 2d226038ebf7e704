//! `sim0mq messages`: the messages of a recording, a line for each.

use std::io::Write;

use sim0mq::Recording;

use super::{refused, stdout};
use crate::args::{Given, Opt};
use crate::failure::Failure;
use crate::files::{self, MOST_RECORDING};
use crate::{ids, progress};

/// Lists the messages of the recording.
pub fn run(given: &Given) -> Result<(), Failure> {
    let bytes = files::read(given.file(), MOST_RECORDING)?;
    progress::stage("judging", "", 0);
    let recording = Recording::open(&bytes).map_err(refused(given))?;
    progress::stage("listing", "messages", recording.len());
    let (json, mut out) = (given.has(Opt::Json), stdout());
    let starts = (0..recording.len()).filter_map(|k| recording.start(k));
    for (k, (start, message)) in starts.zip(&recording).enumerate() {
        let row = row(start, message).map_err(refused(given))?;
        match json {
            true => write!(out, "{}{}", if k == 0 { "[" } else { ",\n " }, row.json(k))?,
            false => writeln!(out, "{}", row.line(k))?,
        }
        progress::done(k + 1);
    }
    if json {
        writeln!(out, "{}", if recording.is_empty() { "[]" } else { "]" })?;
    }
    Ok(out.flush()?)
}

/// What a line says of a message.
struct Row {
    start: usize,
    length: usize,
    fields: usize,
    steps: usize,
    id: String,
    id_json: String,
    status: u8,
}

/// What the line of the message says that begins at this start.
fn row(start: usize, message: &[u8]) -> Result<Row, sim0mq::Refusal> {
    let message = sim0mq::read(message)?;
    let id = message.message_type();
    Ok(Row {
        start,
        length: message.length(),
        fields: message.fields().len(),
        steps: message.steps(),
        id: ids::word(id),
        id_json: ids::json(id),
        status: message.status(),
    })
}

impl Row {
    /// The line of message k.
    fn line(&self, k: usize) -> String {
        let Row { start, length, fields, steps, id, status, .. } = self;
        format!("{k} {start} {length} {fields} {steps} {id} {status}")
    }

    /// The same as JSON.
    fn json(&self, k: usize) -> String {
        let Row { start, length, fields, steps, id_json, status, .. } = self;
        format!(
            "{{\"k\": {k}, \"start\": {start}, \"length\": {length}, \"fields\": {fields}, \
             \"steps\": {steps}, \"type\": {id_json}, \"status\": {status}}}"
        )
    }
}
