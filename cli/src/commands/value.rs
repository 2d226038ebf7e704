//! `sim0mq value`: the scalar value of a field.

use std::io::Write;

use sim0mq::MOST_BYTES;

use super::{refused, stdout};
use crate::args::{Given, Opt};
use crate::failure::Failure;
use crate::{files, scalars};

/// Prints the value of field K, with the names of its unit.
pub fn run(given: &Given) -> Result<(), Failure> {
    let k = given.number()?;
    let bytes = files::read(given.file(), MOST_BYTES)?;
    let value = sim0mq::value(&bytes, k).map_err(refused(given))?;
    let text = match given.has(Opt::Json) {
        true => scalars::json(value),
        false => scalars::line(value),
    };
    let mut out = stdout();
    writeln!(out, "{text}")?;
    Ok(out.flush()?)
}
