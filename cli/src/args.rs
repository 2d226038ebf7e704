//! The words of a call: operands and options.

use std::ffi::{OsStr, OsString};
use std::os::unix::ffi::OsStrExt;
use std::path::Path;

use crate::failure::Failure;
use crate::files::Output;

/// An option of a command.
#[derive(Clone, Copy, Debug, PartialEq, Eq)]
pub enum Opt {
    /// The file to be written.
    Output,
    /// A file that is there may be replaced.
    Force,
    /// Listings as JSON.
    Json,
    /// The bytes of a message.
    Raw,
    /// One deck alone.
    Deck,
    /// After this message.
    At,
    /// A line for each message that changed something.
    History,
    /// The picture to be written.
    Svg,
}

/// Each option with its word, and whether a word of its own follows it.
const WORDS: [(&str, Opt, bool); 9] = [
    ("-o", Opt::Output, true),
    ("--output", Opt::Output, true),
    ("--force", Opt::Force, false),
    ("--json", Opt::Json, false),
    ("--raw", Opt::Raw, false),
    ("--deck", Opt::Deck, true),
    ("--at", Opt::At, true),
    ("--history", Opt::History, false),
    ("--svg", Opt::Svg, true),
];

/// What a command takes.
pub struct Takes {
    /// The name of the command.
    pub name: &'static str,
    /// The fewest operands.
    pub least: usize,
    /// The most operands.
    pub most: usize,
    /// The options.
    pub options: &'static [Opt],
}

/// What a call says.
#[derive(Default)]
pub struct Given {
    /// Whether help is wanted, and nothing else.
    pub help: bool,
    operands: Vec<OsString>,
    options: Vec<(Opt, OsString)>,
}

impl Given {
    /// What the words after the command's name say, where it takes them.
    pub fn of(takes: &Takes, words: &[OsString]) -> Result<Given, Failure> {
        let mut given = Given::default();
        let mut words = words.iter();
        while let Some(word) = words.next() {
            let text = word.to_str().unwrap_or_default();
            match text {
                "--" => given.operands.extend(words.by_ref().cloned()),
                "--help" | "-h" => given.help = true,
                "-" => given.operands.push(word.clone()),
                _ if is_option(word) => given.option(takes, word, &mut words)?,
                _ => given.operands.push(word.clone()),
            }
        }
        match given.help {
            true => Ok(given),
            false => given.counted(takes),
        }
    }

    /// Takes an option, with its word where it has one.
    fn option<'w>(
        &mut self,
        takes: &Takes,
        word: &OsStr,
        rest: &mut impl Iterator<Item = &'w OsString>,
    ) -> Result<(), Failure> {
        let (name, joined) = split(word);
        let wrong = |what: &str| Err(bad(takes, &format!("{name}: {what}")));
        let Some((_, option, valued)) = WORDS.into_iter().find(|known| known.0 == name) else {
            return wrong("no such option");
        };
        if !takes.options.contains(&option) {
            return wrong("not an option of this command");
        }
        if self.has(option) {
            return wrong("given twice");
        }
        let value = match (valued, joined) {
            (false, None) => OsString::new(),
            (true, Some(value)) => value,
            (false, Some(_)) => return wrong("takes no word"),
            (true, None) => match rest.next() {
                Some(value) => value.clone(),
                None => return wrong("a word is missing after it"),
            },
        };
        self.options.push((option, value));
        Ok(())
    }

    /// The same, where there are as many operands as the command takes.
    fn counted(self, takes: &Takes) -> Result<Given, Failure> {
        let n = self.operands.len();
        match () {
            () if n < takes.least => Err(bad(takes, "an operand is missing")),
            () if n > takes.most => Err(bad(takes, "too many operands")),
            () => Ok(self),
        }
    }

    /// Whether an option is given.
    pub fn has(&self, option: Opt) -> bool {
        self.options.iter().any(|given| given.0 == option)
    }

    /// The operands.
    pub fn operands(&self) -> &[OsString] {
        &self.operands
    }

    /// The first operand, a file; standard input where there is none.
    pub fn file(&self) -> &OsStr {
        self.operands.first().map_or(OsStr::new("-"), OsString::as_os_str)
    }

    /// The second operand, a number.
    pub fn number(&self) -> Result<usize, Failure> {
        digits(self.operands.get(1).map_or(OsStr::new(""), OsString::as_os_str))
    }

    /// The number after an option, where it is given.
    pub fn numbered(&self, option: Opt) -> Result<Option<usize>, Failure> {
        self.word(option).map(digits).transpose()
    }

    /// The file after an option, where it is given, as an output.
    pub fn output(&self, option: Opt) -> Output<'_> {
        Output { path: self.word(option).map(Path::new), force: self.has(Opt::Force) }
    }

    /// The word after an option, where it is given.
    fn word(&self, option: Opt) -> Option<&OsStr> {
        self.options.iter().find(|given| given.0 == option).map(|given| given.1.as_os_str())
    }
}

/// The name of an option, and what is joined to a long one by `=`; a name may be any bytes.
fn split(word: &OsStr) -> (String, Option<OsString>) {
    let equals = word.as_bytes().iter().position(|&byte| byte == b'=');
    match equals.filter(|_| word.as_bytes().starts_with(b"--")) {
        None => (word.to_string_lossy().into_owned(), None),
        Some(at) => {
            let (name, value) = word.as_bytes().split_at(at);
            let name = String::from_utf8_lossy(name).into_owned();
            (name, Some(OsStr::from_bytes(&value[1..]).to_os_string()))
        }
    }
}

/// Whether a word is meant as an option.
fn is_option(word: &OsStr) -> bool {
    word.as_bytes().starts_with(b"-")
}

/// The number that a word says, by digits alone.
fn digits(word: &OsStr) -> Result<usize, Failure> {
    let text = word.to_string_lossy();
    let plain = text.bytes().all(|byte| byte.is_ascii_digit());
    let number = text.parse().ok().filter(|_| plain);
    number.ok_or_else(|| Failure::Use(format!("{text}: not a number from 0 on")))
}

/// A wrong use of a command.
pub fn bad(takes: &Takes, what: &str) -> Failure {
    Failure::Use(format!("{}: {what}; see sim0mq {} --help", takes.name, takes.name))
}
