//! `sim0mq show`: one message of a recording.

use sim0mq::message_of;

use super::list;
use crate::args::{Given, Opt};
use crate::failure::Failure;
use crate::files::{self, MOST_RECORDING};

/// Lists message K of the recording, or writes its bytes; no other message is judged.
pub fn run(given: &Given) -> Result<(), Failure> {
    let (k, raw) = (given.number()?, given.has(Opt::Raw));
    let output = given.output(Opt::Output);
    if !raw && output.path.is_some() {
        return Err(Failure::Use("show: -o goes with --raw; see sim0mq show --help".to_string()));
    }
    output.ready()?;
    let bytes = files::read(given.file(), MOST_RECORDING)?;
    let name = format!("{}, message {k}", files::shown(given.file()));
    let message = message_of(&bytes, k).map_err(|refusal| Failure::Refused(refusal, name))?;
    match raw {
        true => output.write(message),
        false => list::listed(given, message),
    }
}
