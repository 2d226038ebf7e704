//! What the tests have in common: running the built command, messages, and a folder for each test.
#![allow(dead_code)]

use std::fs;
use std::io::Write;
use std::path::{Path, PathBuf};
use std::process::{Command, Output, Stdio};
use std::thread;

use sim0mq::{Header, Writer, MOST_BYTES};

/// The built command.
pub const BUILT: &str = env!("CARGO_BIN_EXE_sim0mq");

/// What a run of the command came to.
#[derive(Debug, PartialEq, Eq)]
pub struct Ran {
    /// The status.
    pub status: i32,
    /// Standard output.
    pub out: String,
    /// Standard error.
    pub err: String,
}

/// The folder of the samples.
pub fn samples() -> PathBuf {
    Path::new(env!("CARGO_MANIFEST_DIR")).join("samples")
}

/// A file that another part of the repository has.
pub fn repository(path: &str) -> PathBuf {
    Path::new(env!("CARGO_MANIFEST_DIR")).join("..").join(path)
}

/// A new and empty folder for the test of this name.
pub fn folder(test: &str) -> PathBuf {
    let folder = Path::new(env!("CARGO_TARGET_TMPDIR")).join(test);
    let _ = fs::remove_dir_all(&folder);
    fs::create_dir_all(&folder).expect("a folder for the test");
    folder
}

/// The command, to be run in the folder of the samples with these words.
pub fn command(words: &[&str]) -> Command {
    let mut command = Command::new(BUILT);
    command.args(words).current_dir(samples()).stdin(Stdio::null());
    command
}

/// Runs the command and answers the bytes that it wrote.
pub fn bytes(words: &[&str], input: &[u8]) -> Output {
    let mut command = command(words);
    command.stdin(Stdio::piped()).stdout(Stdio::piped()).stderr(Stdio::piped());
    let mut child = command.spawn().expect("the command runs");
    let mut stdin = child.stdin.take().expect("its standard input");
    let input = input.to_vec();
    // it may end before it has read everything
    let feeder = thread::spawn(move || drop(stdin.write_all(&input)));
    let output = child.wait_with_output().expect("the command ends");
    feeder.join().expect("its input is written");
    output
}

/// Runs the command with this standard input.
pub fn fed(words: &[&str], input: &[u8]) -> Ran {
    let Output { status, stdout, stderr } = bytes(words, input);
    Ran {
        status: status.code().expect("a status"),
        out: String::from_utf8(stdout).expect("output in UTF-8"),
        err: String::from_utf8(stderr).expect("errors in UTF-8"),
    }
}

/// Runs the command with an empty standard input.
pub fn ran(words: &[&str]) -> Ran {
    fed(words, b"")
}

/// A run that was fine, and printed this.
pub fn fine(out: &str) -> Ran {
    Ran { status: 0, out: out.to_string(), err: String::new() }
}

/// A run in which this file was refused by this line, which means that.
pub fn refused(line: &str, file: &str, meaning: &str) -> Ran {
    Ran { status: 1, out: format!("{line}\n"), err: format!("sim0mq: {file}: {meaning}\n") }
}

/// An id that is an 8-bit string, encoded.
pub fn text(id: &[u8]) -> Vec<u8> {
    let length = u32::try_from(id.len()).expect("an id that is not too long");
    [&[9], &length.to_be_bytes()[..], id].concat()
}

/// A message of this type id, number and status, with these encoded fields.
pub fn message(id: &[u8], number: i64, status: u8, fields: &[&[u8]]) -> Vec<u8> {
    let ids = [text(b"SEA1"), text(b"purser"), text(b"SHORE"), id.to_vec()].concat();
    let header = Header { ids: &ids, number, status, fields: fields.len(), count_type: None };
    let mut out = vec![0; MOST_BYTES];
    let mut writer = Writer::open(&mut out, &header).expect("a header");
    for field in fields {
        writer.add(field).expect("a field");
    }
    let length = writer.close().expect("a message").len();
    out.truncate(length);
    out
}

/// A muster: one head, or two decks where it is a change.
pub fn muster(number: i64, status: u8, decks: &[u8]) -> Vec<u8> {
    let fields: Vec<[u8; 2]> = decks.iter().map(|&deck| [0, deck]).collect();
    let fields: Vec<&[u8]> = fields.iter().map(|field| &field[..]).collect();
    message(&text(b"MUS.1"), number, status, &fields)
}

/// A sample's bytes.
pub fn sample(name: &str) -> Vec<u8> {
    fs::read(samples().join(name)).expect("a sample")
}

/// A path as a word.
pub fn word(path: &Path) -> &str {
    path.to_str().expect("a path in UTF-8")
}

/// The names of the files in a folder, in order.
pub fn names(folder: &Path) -> Vec<String> {
    let files = fs::read_dir(folder).expect("the folder");
    let mut names: Vec<String> =
        files.map(|file| file.expect("a file").file_name().to_string_lossy().into()).collect();
    names.sort();
    names
}
