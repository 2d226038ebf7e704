//! Records the message of the manual's section 2.3.6 and two musters, opens the recording, brings
//! back what is left of a copy that was cut, and counts the heads of deck 7 from a short muster.
//! Prints what the C example prints.

use std::process::ExitCode;

use sim0mq::{reckon, salvage, Header, Ledger, Recorder, Recording, Refusal, Stop, Value, Writer};

/// Run IDVV.14.2, sender MC.1, receiver MM1.4, type DSOL.3, number 124, status 2, one double, 0.2.
const MESSAGE: &[u8; 77] = b"\x09\0\0\0\x05SIM01\x09\0\0\0\x09IDVV.14.2\x09\0\0\0\x04MC.1\
    \x09\0\0\0\x05MM1.4\x09\0\0\0\x06DSOL.3\x03\0\0\0\0\0\0\0\x7C\0\x02\x01\0\x01\
    \x05\x3F\xC9\x99\x99\x99\x99\x99\x9A";

/// The ids of a muster: run 1, sender GATE, receiver 2, type MUS.1.
const IDS: &[u8] = b"\x01\0\x01\x09\0\0\0\x04GATE\x01\0\x02\x09\0\0\0\x05MUS.1";

/// The deck that is asked for.
const DECK: usize = 7;

/// What a muster says: its number, its status and its decks.
type Muster = (i64, u8, &'static [i8]);

/// A head joins a deck; a head joins one deck and leaves another; a head leaves a deck.
const NEW: u8 = 1;
const CHANGE: u8 = 2;
const DELETE: u8 = 3;

/// Two come aboard on deck 7 and one on deck 3, which the feed says twice; she moves to deck 7, and
/// one leaves the ship.
const MUSTERS: [Muster; 6] = [
    (1, NEW, &[7]),
    (2, NEW, &[7]),
    (3, NEW, &[3]),
    (3, NEW, &[3]),
    (4, CHANGE, &[7, 3]),
    (5, DELETE, &[7]),
];

/// The muster's message, with a field of a byte for each deck.
fn written((number, status, decks): Muster) -> Result<Vec<u8>, Refusal> {
    let mut out = [0; 100];
    let header = Header { ids: IDS, number, status, fields: decks.len(), count_type: Some(0) };
    let mut writer = Writer::open(&mut out, &header)?;
    for &deck in decks {
        writer.add_value(Value::Byte(deck))?;
    }
    Ok(writer.close()?.to_vec())
}

/// Records the message and the first two musters.
fn recorded() -> Result<Vec<u8>, Refusal> {
    let mut recorder = Recorder::new();
    recorder.add(MESSAGE)?;
    for muster in &MUSTERS[..2] {
        recorder.add(&written(*muster)?)?;
    }
    let messages = recorder.len();
    let recording = recorder.finish()?;
    println!("recorded: {messages} messages, {} bytes", recording.len());
    Ok(recording)
}

/// Says where each message of the recording stands.
fn opened(recording: &[u8]) -> Result<(), Refusal> {
    let recording = Recording::open(recording)?;
    println!("opened: {} messages", recording.len());
    for (k, message) in recording.iter().enumerate() {
        println!("message {k}: {} bytes from {}", message.len(), recording.start(k).unwrap_or(0));
    }
    Ok(())
}

/// Brings back what is left of the recording where it is cut.
fn salvaged(recording: &[u8], cut: usize) -> Result<(), Refusal> {
    let salvaged = salvage(&recording[..cut]);
    print!("cut at {cut}: kept {}, dropped {}", salvaged.kept(), salvaged.dropped());
    if let Stop::At(refusal) = salvaged.stop() {
        print!(", refused {} at {}", refusal.number(), refusal.place());
    }
    let recording = Recording::open(salvaged.recording())?;
    println!("; opened: {} messages", recording.len());
    Ok(())
}

/// Counts the heads of the deck: from the musters one by one, and from the recording.
fn counted(recording: &[u8]) -> Result<(), Refusal> {
    let mut ledger = Ledger::new();
    for muster in MUSTERS {
        if let Err(refusal) = ledger.muster(&written(muster)?) {
            let (said, place) = (refusal.number(), refusal.place());
            println!("muster {}: refused {said} at {place}", muster.0);
        }
    }
    println!("deck {DECK}: {} heads", ledger.decks()[DECK]);
    let reckoned = reckon(recording)?;
    let (applied, refused) = (reckoned.applied(), reckoned.refused());
    let heads = reckoned.ledger().decks()[DECK];
    println!("of the recording: applied {applied}, refused {refused}, deck {DECK}: {heads} heads");
    Ok(())
}

/// Does all of it.
fn run() -> Result<(), Refusal> {
    let recording = recorded()?;
    opened(&recording)?;
    salvaged(&recording, 150)?;
    counted(&recording)
}

fn main() -> ExitCode {
    match run() {
        Ok(()) => ExitCode::SUCCESS,
        Err(refusal) => {
            println!("{refusal}");
            ExitCode::FAILURE
        }
    }
}
