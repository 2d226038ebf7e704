//! `sim0mq salvage`: what can be kept of a recording that was cut.

use std::io::{self, Write};

use sim0mq::{Salvaged, Stop};

use crate::args::{Given, Opt};
use crate::failure::Failure;
use crate::files::{self, MOST_RECORDING};
use crate::progress;

/// Writes the recording of the messages that are kept, and reports on standard error.
pub fn run(given: &Given) -> Result<(), Failure> {
    let output = given.output(Opt::Output);
    if output.path.is_none() {
        return Err(Failure::Use("salvage: -o is missing; see sim0mq salvage --help".to_string()));
    }
    output.ready()?;
    let file = files::read(given.file(), MOST_RECORDING)?;
    if file.len() > MOST_RECORDING {
        let name = files::shown(given.file());
        return Err(Failure::System(format!("{name}: longer than any recording")));
    }
    progress::stage("salvaging", "", 0);
    let salvaged = sim0mq::salvage(&file);
    drop(file);
    output.write(salvaged.recording())?;
    progress::stop();
    report(&salvaged);
    Ok(())
}

/// Says on standard error how many messages were kept, how many bytes dropped, and why it stopped.
fn report(salvaged: &Salvaged) {
    let stop = match salvaged.stop() {
        Stop::AtEnd => "stopped at the end".to_string(),
        Stop::AtMost => "stopped at 4096 messages".to_string(),
        Stop::At(refusal) => format!("refused {} at {}", refusal.number(), refusal.place()),
    };
    // Where that cannot be written there is nobody to tell.
    let _ =
        writeln!(io::stderr(), "kept {} dropped {} {stop}", salvaged.kept(), salvaged.dropped());
}
