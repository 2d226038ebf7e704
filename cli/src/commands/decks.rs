//! `sim0mq decks`: how many heads are on each deck after a recording's musters.

use std::io::Write;
use std::path::Path;

use sim0mq::{Ledger, Recording, Refusal, RefusalKind, DECKS};

use super::{refused, stdout};
use crate::args::{Given, Opt};
use crate::failure::Failure;
use crate::files::{self, MOST_RECORDING};
use crate::{json, progress, svg};

/// Counts the heads of the recording, draws them where that is wanted, and prints them.
pub fn run(given: &Given) -> Result<(), Failure> {
    let (deck, at) = (given.numbered(Opt::Deck)?, given.numbered(Opt::At)?);
    if deck.is_some_and(|deck| deck >= DECKS) {
        return Err(Failure::Use(format!("decks: the last deck is {}", DECKS - 1)));
    }
    let picture = given.output(Opt::Svg);
    if picture.path == Some(Path::new("-")) {
        return Err(Failure::Use("decks: --svg is a file; see sim0mq decks --help".to_string()));
    }
    picture.ready()?;
    let bytes = files::read(given.file(), MOST_RECORDING)?;
    let count = counted(given, &bytes, at)?;
    if picture.path.is_some() {
        picture.write(svg::picture(&count.decks, &count.history, count.messages).as_bytes())?;
    }
    let mut out = stdout();
    out.write_all(count.text(deck, given.has(Opt::History), given.has(Opt::Json)).as_bytes())?;
    Ok(out.flush()?)
}

/// What a recording comes to, after message `at` where one is given.
fn counted(given: &Given, bytes: &[u8], at: Option<usize>) -> Result<Count, Failure> {
    progress::stage("judging", "", 0);
    let recording = Recording::open(bytes).map_err(refused(given))?;
    if let Some(at) = at.filter(|&at| at >= recording.len()) {
        let name = format!("{}, message {at}", files::shown(given.file()));
        return Err(Failure::Refused(Refusal::new(RefusalKind::NoField, 0), name));
    }
    Ok(Count::of(&recording, at.map_or(recording.len(), |at| at + 1)))
}

/// A deck whose heads a message changed: the message, the deck, and its heads from then on.
#[derive(Clone, Copy)]
pub struct Change {
    /// The number of the message.
    pub k: usize,
    /// The deck.
    pub deck: usize,
    /// The heads on it after the message.
    pub heads: u16,
}

/// What the messages of a recording come to.
struct Count {
    messages: usize,
    decks: [u16; DECKS],
    applied: usize,
    passed: usize,
    refused: Vec<(RefusalKind, usize)>,
    history: Vec<Change>,
}

impl Count {
    /// What the first messages of a recording come to, so many of them.
    fn of(recording: &Recording<'_>, messages: usize) -> Count {
        let mut count = Count {
            messages,
            decks: [0; DECKS],
            applied: 0,
            passed: 0,
            refused: Vec::new(),
            history: Vec::new(),
        };
        progress::stage("counting", "messages", messages);
        let mut ledger = Ledger::new();
        for (k, message) in recording.iter().take(messages).enumerate() {
            match ledger.muster(message) {
                Ok(_) => count.apply(k, ledger.decks()),
                // the ledger refuses the type of a message that is no muster by this number
                Err(other) if other.kind() == RefusalKind::MessageType => count.passed += 1,
                Err(refusal) => count.refuse(refusal.kind()),
            }
            progress::done(k + 1);
        }
        count
    }

    /// Notes that message k was applied, and what is on the decks after it.
    fn apply(&mut self, k: usize, decks: [u16; DECKS]) {
        self.applied += 1;
        let changed = (0..DECKS).filter(|&deck| decks[deck] != self.decks[deck]);
        self.history.extend(changed.map(|deck| Change { k, deck, heads: decks[deck] }));
        self.decks = decks;
    }

    /// Notes that a message was refused.
    fn refuse(&mut self, kind: RefusalKind) {
        match self.refused.iter_mut().find(|counted| counted.0 == kind) {
            Some(counted) => counted.1 += 1,
            None => self.refused.push((kind, 1)),
        }
        self.refused.sort_unstable();
    }

    /// What is printed: the history or the heads, of all decks or of one.
    fn text(&self, deck: Option<usize>, history: bool, json: bool) -> String {
        match (history, deck, json) {
            (true, deck, json) => self.changes(deck, json),
            (false, Some(deck), false) => format!("{}\n", self.decks[deck]),
            (false, Some(deck), true) => {
                format!("{{\"deck\": {deck}, \"heads\": {}}}\n", self.decks[deck])
            }
            (false, None, false) => self.lines(),
            (false, None, true) => self.json(),
        }
    }

    /// A line for each deck, one for the messages, and one for each refusal that was met.
    fn lines(&self) -> String {
        let Count { applied, passed, .. } = self;
        let refused: usize = self.refused.iter().map(|counted| counted.1).sum();
        let decks = self.decks.iter().enumerate();
        let mut text: String =
            decks.map(|(d, heads)| format!("deck {d} heads {heads}\n")).collect();
        text += &format!("applied {applied} refused {refused} passed over {passed}\n");
        for (kind, times) in &self.refused {
            text += &format!("refused {} times {times}: {kind}\n", kind.number());
        }
        text
    }

    /// The same as JSON.
    fn json(&self) -> String {
        let Count { messages, applied, passed, .. } = self;
        let decks = json::list(self.decks, |heads| heads.to_string());
        let refused =
            json::list(&self.refused, |(kind, times)| format!("\"{}\": {times}", kind.number()));
        format!(
            "{{\"messages\": {messages}, \"decks\": [{decks}], \"applied\": {applied}, \
             \"refused\": {{{refused}}}, \"passed_over\": {passed}}}\n"
        )
    }

    /// A line for each message that changed the heads of a deck, or of this one.
    fn changes(&self, only: Option<usize>, json: bool) -> String {
        let wanted = self.history.iter().filter(|change| only.is_none_or(|d| d == change.deck));
        let wanted: Vec<Change> = wanted.copied().collect();
        let lines = wanted.chunk_by(|one, next| one.k == next.k).map(|same| match json {
            true => {
                let heads =
                    |c: &Change| format!("{{\"deck\": {}, \"heads\": {}}}", c.deck, c.heads);
                format!("{{\"k\": {}, \"decks\": [{}]}}", same[0].k, json::list(same, heads))
            }
            false => {
                let heads = |c: &Change| format!(" deck {} heads {}", c.deck, c.heads);
                format!("{}{}\n", same[0].k, same.iter().map(heads).collect::<String>())
            }
        });
        match json {
            true => format!("[{}]\n", lines.collect::<Vec<_>>().join(",\n ")),
            false => lines.collect(),
        }
    }
}
