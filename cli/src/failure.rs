//! Why a command did not do what it was asked, told so that no byte of a message is in it.

use std::io::{self, Write};

use sim0mq::Refusal;

use crate::json;

/// Why a command failed.
#[derive(Debug)]
pub enum Failure {
    /// What this file has is refused.
    Refused(Refusal, String),
    /// Something is refused, and told already.
    Told,
    /// The command was not called as it has to be.
    Use(String),
    /// The system failed, in reading or in writing.
    System(String),
    /// Nobody reads standard output any more.
    Pipe,
}

/// Failures in writing to standard output; those of files are told with the file's name.
impl From<io::Error> for Failure {
    fn from(error: io::Error) -> Failure {
        match error.kind() {
            io::ErrorKind::BrokenPipe => Failure::Pipe,
            _ => Failure::System(format!("standard output: {error}")),
        }
    }
}

impl Failure {
    /// The failure of a file, by its name.
    pub fn of(name: &str, error: &io::Error) -> Failure {
        Failure::System(format!("{name}: {error}"))
    }

    /// The status by which the command ends.
    pub fn status(&self) -> u8 {
        match self {
            Failure::Refused(..) | Failure::Told => 1,
            Failure::Use(_) | Failure::System(_) | Failure::Pipe => 2,
        }
    }

    /// Tells the failure: a refusal on standard output, what it means and all else on standard
    /// error. Answers the status.
    pub fn tell(&self, json: bool) -> u8 {
        match self {
            Failure::Refused(refusal, name) => {
                say(&format!("{name}: {}", refusal.kind()));
                return told(*refusal, json).map_or_else(|failure| failure.tell(json), |()| 1);
            }
            Failure::Use(text) | Failure::System(text) => say(text),
            Failure::Told | Failure::Pipe => (),
        }
        self.status()
    }
}

/// A line on standard error; where that cannot be written either, there is nobody to tell.
pub fn say(text: &str) {
    let _ = writeln!(io::stderr(), "sim0mq: {text}");
}

/// The line of a refusal on standard output.
fn told(refusal: Refusal, json: bool) -> Result<(), Failure> {
    let mut out = io::stdout().lock();
    match json {
        true => writeln!(out, "{{{}}}", json::refusal(refusal))?,
        false => writeln!(out, "refused {} at {}", refusal.number(), refusal.place())?,
    }
    Ok(out.flush()?)
}
