//! `sim0mq list`: the listing of a message.

use std::io::Write;

use sim0mq::MOST_BYTES;

use super::{refused, stdout};
use crate::args::{Given, Opt};
use crate::failure::Failure;
use crate::{files, listing};

/// Lists the message of the file.
pub fn run(given: &Given) -> Result<(), Failure> {
    let bytes = files::read(given.file(), MOST_BYTES)?;
    listed(given, &bytes)
}

/// Lists a message.
pub fn listed(given: &Given, message: &[u8]) -> Result<(), Failure> {
    let message = sim0mq::read(message).map_err(refused(given))?;
    let mut out = stdout();
    match given.has(Opt::Json) {
        true => listing::write_json(&mut out, &message)?,
        false => listing::write(&mut out, &message)?,
    }
    Ok(out.flush()?)
}
