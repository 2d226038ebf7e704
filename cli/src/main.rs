//! `sim0mq`: Sim0MQ messages and recordings for the people who have files and a question.
//!
//! Nothing of the format is decided here: whatever a message or a recording says, the library
//! behind the crate `sim0mq` answers. What is here reads files, prints, and writes files whole.
#![deny(missing_docs)]
#![deny(unsafe_code)]

mod args;
mod commands;
mod failure;
mod files;
mod help;
mod ids;
mod json;
mod kind;
mod listing;
mod progress;
mod scalars;
mod svg;
mod units;

use std::env;
use std::ffi::OsString;
use std::process::ExitCode;

/// Runs the command that the arguments say. The status is 0 where all is fine, 1 where something
/// is refused, 2 where the use is wrong or the system fails.
fn main() -> ExitCode {
    let words: Vec<OsString> = env::args_os().skip(1).collect();
    ExitCode::from(commands::run(&words))
}
