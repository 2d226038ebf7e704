//! `sim0mq blank`: the blanked copy of a message or of a recording.

use std::iter;
use std::ops::Range;

use sim0mq::{Recording, Refusal};

use super::refused;
use crate::args::{Given, Opt};
use crate::failure::Failure;
use crate::files::{self, MOST_RECORDING};
use crate::kind::{kind, Kind};
use crate::progress;

/// Writes the blanked copy of the file.
pub fn run(given: &Given) -> Result<(), Failure> {
    let output = given.output(Opt::Output);
    output.ready()?;
    let mut bytes = files::read(given.file(), MOST_RECORDING)?;
    blank(&mut bytes).map_err(refused(given))?;
    output.write(&bytes)
}

/// Puts zero in every value byte: of the message, or of each message of the recording, where each
/// stands, so that the file is in memory once.
fn blank(bytes: &mut [u8]) -> Result<(), Refusal> {
    progress::stage("judging", "", 0);
    let spans = match kind(bytes)? {
        Kind::Message => iter::once(0..bytes.len()).collect(),
        Kind::Recording(recording) => spans(&recording),
    };
    progress::stage("blanking", "messages", spans.len());
    for (k, span) in spans.into_iter().enumerate() {
        let message = bytes[span.clone()].to_vec();
        sim0mq::blank(&message, &mut bytes[span])?;
        progress::done(k + 1);
    }
    Ok(())
}

/// Where the messages of a recording stand.
fn spans(recording: &Recording<'_>) -> Vec<Range<usize>> {
    let starts = (0..recording.len()).filter_map(|k| recording.start(k));
    starts.zip(recording).map(|(start, message)| start..start + message.len()).collect()
}
