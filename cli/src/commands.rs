//! The commands, each in a file of its own.

mod blank;
mod check;
mod decks;
mod list;
mod messages;
mod record;
mod salvage;
mod show;
mod value;

pub use decks::Change;

use std::ffi::OsString;
use std::io::{self, BufWriter, StdoutLock, Write};

use sim0mq::Refusal;

use crate::args::{Given, Opt, Takes};
use crate::failure::Failure;
use crate::files;
use crate::{help, progress};

/// A command: what it takes, its help, and what it does.
struct Command {
    takes: Takes,
    help: &'static str,
    run: fn(&Given) -> Result<(), Failure>,
}

/// A row of the commands' table.
const fn command(
    (name, least, most): (&'static str, usize, usize),
    options: &'static [Opt],
    help: &'static str,
    run: fn(&Given) -> Result<(), Failure>,
) -> Command {
    Command { takes: Takes { name, least, most, options }, help, run }
}

/// As many operands as there are.
const ANY: usize = usize::MAX;

/// The commands.
const COMMANDS: [Command; 9] = {
    use Opt::{At, Deck, Force, History, Json, Output, Raw, Svg};
    [
        command(("list", 0, 1), &[Json], help::LIST, list::run),
        command(("blank", 0, 1), &[Output, Force], help::BLANK, blank::run),
        command(("value", 2, 2), &[Json], help::VALUE, value::run),
        command(("record", 1, ANY), &[Output, Force], help::RECORD, record::run),
        command(("messages", 1, 1), &[Json], help::MESSAGES, messages::run),
        command(("show", 2, 2), &[Json, Raw, Output, Force], help::SHOW, show::run),
        command(("salvage", 1, 1), &[Output, Force], help::SALVAGE, salvage::run),
        command(("check", 1, 1), &[Json], help::CHECK, check::run),
        command(("decks", 1, 1), &[Json, Deck, At, History, Svg, Force], help::DECKS, decks::run),
    ]
};

/// Runs the command that the words say, and answers the status by which to end.
pub fn run(words: &[OsString]) -> u8 {
    let (said, json) = match words.split_first() {
        Some((name, rest)) => named(&name.to_string_lossy(), rest),
        None => (Err(Failure::Use(format!("no command\n{}", help::ALL.trim_end()))), false),
    };
    progress::stop();
    said.map_or_else(|failure| failure.tell(json), |()| 0)
}

/// Runs a command by its name, and says too whether JSON is wanted.
fn named(name: &str, words: &[OsString]) -> (Result<(), Failure>, bool) {
    match (name, words) {
        ("--help" | "-h" | "help", []) => return (print(help::ALL), false),
        ("help", [command]) => return (helped(&command.to_string_lossy()), false),
        ("--version", []) => {
            return (print(concat!("sim0mq ", env!("CARGO_PKG_VERSION"), "\n")), false)
        }
        _ => (),
    }
    let Some(command) = COMMANDS.iter().find(|command| command.takes.name == name) else {
        return (Err(unknown(name)), false);
    };
    match Given::of(&command.takes, words) {
        Ok(given) if given.help => (print(command.help), false),
        Ok(given) => {
            progress::start();
            ((command.run)(&given), given.has(Opt::Json))
        }
        Err(failure) => (Err(failure), false),
    }
}

/// Prints the help of a command.
fn helped(name: &str) -> Result<(), Failure> {
    let known = COMMANDS.iter().find(|command| command.takes.name == name);
    known.map_or_else(|| Err(unknown(name)), |command| print(command.help))
}

/// The failure of a name that is no command's.
fn unknown(name: &str) -> Failure {
    Failure::Use(format!("{name}: no such command; see sim0mq --help"))
}

/// Prints a text.
fn print(text: &str) -> Result<(), Failure> {
    let mut out = stdout();
    out.write_all(text.as_bytes())?;
    Ok(out.flush()?)
}

/// Standard output, written in larger pieces; to be flushed at the end.
fn stdout() -> BufWriter<StdoutLock<'static>> {
    progress::printing();
    BufWriter::new(io::stdout().lock())
}

/// The failure by which the first operand is refused.
fn refused(given: &Given) -> impl Fn(Refusal) -> Failure {
    let name = files::shown(given.file());
    move |refusal| Failure::Refused(refusal, name.clone())
}
