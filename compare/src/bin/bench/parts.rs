//! The table of what is built on messages, in docs/SPEED.md: the library beside the reader in Rust, beside its
//! own reading of each message, and beside a `memcpy` of them.

mod calls;
mod recordings;

use crate::measure::{measure, Rounds, ROUNDS};
use crate::table::{processor, shown};
use calls::{Adding, Commanding, Mustering};
use compare::peer::ledger::Ledger;
use compare::peer::senders::Book;
use compare::product::Product;
use compare::samples::{any_bytes, commands, joined, recording, samples};
use compare::subject::{Parts, Peer};
use recordings::{Asking, Opening, OpeningInto, Reckoning, Recording, Salvaging};
use sim0mq::raw;

/// Who is timed; not all calls have the last two beside them.
#[derive(Clone, Copy, Debug)]
enum Who {
    Library,
    Rust,
    Reading,
    Memcpy,
}

impl From<Who> for usize {
    fn from(who: Who) -> usize {
        who as usize
    }
}

/// All that are timed, in the order of [`Who`].
const ALL: [Who; 4] = [Who::Library, Who::Rust, Who::Reading, Who::Memcpy];

/// A ledger, and the book beside it as each subject keeps it.
pub struct Books {
    ledger: Ledger,
    entries: Book,
    numbers: [u64; raw::BOOK_NUMBERS],
}

/// The parts, with the two calls that [`Parts`] has in another form, for comparing, as a caller has them.
pub trait Called: Parts {
    /// Asks which command a message is.
    fn which(&self, message: &[u8], answer: &mut [u64]) -> u32;
    /// Musters a message.
    fn apply(&self, books: &mut Books, message: &[u8], answer: &mut [u64]) -> u32;
}

impl Called for Product {
    fn which(&self, message: &[u8], answer: &mut [u64]) -> u32 {
        raw::command(message, answer)
    }

    fn apply(&self, books: &mut Books, message: &[u8], answer: &mut [u64]) -> u32 {
        raw::muster(&mut books.ledger, &mut books.numbers, message, answer)
    }
}

impl Called for Peer {
    fn which(&self, message: &[u8], answer: &mut [u64]) -> u32 {
        self.command(message, answer)
    }

    fn apply(&self, books: &mut Books, message: &[u8], answer: &mut [u64]) -> u32 {
        self.muster(&mut books.ledger, &mut books.entries, message, answer)
    }
}

/// Calls of a part, with the buffers that are lent to them.
pub trait Work {
    /// How many of [`ALL`] are timed.
    const MANY: usize = 2;
    /// The bytes of what the calls are about.
    fn bytes(&self) -> usize;
    /// Makes the calls so many times, and answers the number of the last one's refusal, or 0.
    fn run<S: Called>(&mut self, subject: &S, times: u64) -> u64;
    /// Has the library read each of the messages so many times.
    fn read(&mut self, _times: u64) {}
    /// Copies the messages so many times.
    fn copy(&mut self, _times: u64) {}
}

/// Times every row, prints it, and answers the whole table.
pub fn table() -> String {
    let head = "| Call | Bytes | Library, ns | Library over Rust | Library over reading each message | Library over \
                `memcpy` | Rust over `memcpy` |";
    let mut lines =
        vec![format!("One core, {}; {ROUNDS} rounds a row.", processor()), String::new()];
    lines.extend([head, "|---|--:|--:|--:|--:|--:|--:|"].map(str::to_owned));
    println!("{}", lines.join("\n"));
    let mut add = |line: String| {
        println!("{line}");
        lines.push(line);
    };
    of_recordings("77", &samples()[0].bytes, &mut add);
    of_recordings("2,000", &any_bytes(2_000).bytes, &mut add);
    add(line("reckon 4,096 musters of 32 senders", Reckoning::of(&joined())));
    for command in &commands() {
        add(line(&format!("command {}", command.name), Commanding::of(&command.bytes)));
    }
    add(line("muster, the sender alone in the book", Mustering::of(1)));
    add(line("muster, the sender the last of 32", Mustering::of(32)));
    add(line("sum of a time and a duration", Adding::of()));
    lines.join("\n") + "\n"
}

/// The rows of recordings that have this message, of so many bytes, as many times as may be.
fn of_recordings(bytes: &str, message: &[u8], add: &mut impl FnMut(String)) {
    let recording = recording(message);
    let row = |call: &str| format!("{call} of {bytes} bytes");
    add(line(&row("open 4,096 messages"), Opening::of(&recording, message.len())));
    add(line(&row("open with a table 4,096 messages"), OpeningInto::of(&recording, message.len())));
    for (name, k) in [("first", 0), ("middle", 2_048), ("last", 4_095)] {
        add(line(&row(&format!("the {name} of 4,096 messages")), Asking::of(&recording, k)));
    }
    add(line(&row("record 4,096 messages"), Recording::of(&recording, message.len())));
    add(line(
        &row("salvage a cut file of 4,095 messages"),
        Salvaging::of(&recording, message.len()),
    ));
}

/// The line of some calls, which both accept before they are timed and after.
fn line<W: Work>(name: &str, mut work: W) -> String {
    let accepted = |work: &mut W| {
        assert_eq!((work.run(&Product, 1), work.run(&Peer, 1)), (0, 0), "{name} is accepted");
    };
    accepted(&mut work);
    let bytes = work.bytes();
    let rounds = measure(&ALL[..W::MANY], |who, times| match who {
        Who::Library => drop(work.run(&Product, times)),
        Who::Rust => drop(work.run(&Peer, times)),
        Who::Reading => work.read(times),
        Who::Memcpy => work.copy(times),
    });
    accepted(&mut work);
    let nanos = rounds.nanos(Who::Library).median;
    let copied = |who| if W::MANY > 3 { median(&rounds, who) } else { String::new() };
    let cells = [
        name.to_owned(),
        bytes.to_string(),
        format!("{nanos:.1}"),
        shown(rounds.ratio(Who::Library, Who::Rust)),
        if W::MANY > 2 { shown(rounds.ratio(Who::Library, Who::Reading)) } else { String::new() },
        copied(Who::Library),
        copied(Who::Rust),
    ];
    format!("| {} |", cells.join(" | "))
}

/// The time of one over that of `memcpy`.
fn median(rounds: &Rounds, who: Who) -> String {
    format!("{:.2}", rounds.ratio(who, Who::Memcpy).median)
}
