//! The driver of the parts finds no difference where there is none, finds
//! planted ones, and its cases reach what there is to reach.

mod common;

use common::Faulty;
use compare::driver::PartsDriver;
use compare::generate::{self, Recording, Run};
use compare::peer::ledger::{self, Ledger};
use compare::peer::recordings::{self, Recorder, Stop};
use compare::peer::senders::{self, Book};
use compare::peer::{self, commands, Value};
use compare::plain::Plain;
use compare::random::Random;
use compare::subject::{Parts, Peer};
use compare::tally::Call;
use std::collections::BTreeMap;

/// A call that the faulty subject answers wrongly.
#[derive(Clone, Copy, Debug, PartialEq)]
enum Fault {
    Messages,
    RefusedTable,
    AskedLength,
    NewState,
    RecordedByte,
    RecordedState,
    ClosedByte,
    SalvagedByte,
    Dropped,
    StopPlace,
    CommandNumber,
    SumBits,
    DifferenceDisplay,
    TakenPlace,
    RefusedBook,
    Held,
    ForgottenBook,
    RefusedLedger,
    MusteredBook,
    Heads,
    ShortAnswer,
}

const FAULTS: [Fault; 21] = [
    Fault::Messages,
    Fault::RefusedTable,
    Fault::AskedLength,
    Fault::NewState,
    Fault::RecordedByte,
    Fault::RecordedState,
    Fault::ClosedByte,
    Fault::SalvagedByte,
    Fault::Dropped,
    Fault::StopPlace,
    Fault::CommandNumber,
    Fault::SumBits,
    Fault::DifferenceDisplay,
    Fault::TakenPlace,
    Fault::RefusedBook,
    Fault::Held,
    Fault::ForgottenBook,
    Fault::RefusedLedger,
    Fault::MusteredBook,
    Fault::Heads,
    Fault::ShortAnswer,
];

impl Parts for Faulty<Fault> {
    fn name(&self) -> &'static str {
        "faulty"
    }

    fn open_recording(&self, recording: &[u8], answer: &mut [u64]) -> u32 {
        let returned = Peer.open_recording(recording, answer);
        self.spoil(Fault::Messages, returned, answer, 2)
    }

    fn open_into(&self, recording: &[u8], table: &mut [u32], answer: &mut [u64]) -> u32 {
        let returned = Peer.open_into(recording, table, answer);
        if let (Fault::RefusedTable, 1..=31, Some(entry)) = (self.0, returned, table.first_mut()) {
            *entry ^= 1;
        }
        returned
    }

    fn ask_message(&self, recording: &[u8], k: u64, answer: &mut [u64]) -> u32 {
        let returned = Peer.ask_message(recording, k, answer);
        self.spoil(Fault::AskedLength, returned, answer, 3)
    }

    fn new_recorder(&self, answer: &mut [u64]) -> u32 {
        let returned = Peer.new_recorder(answer);
        self.spoil(Fault::NewState, returned, answer, 5)
    }

    fn record(&self, state: Recorder, message: &[u8], out: &mut [u8], answer: &mut [u64]) -> u32 {
        let returned = Peer.record(state, message, out, answer);
        self.spoil(Fault::RecordedState, returned, answer, 4);
        self.spoil_byte(Fault::RecordedByte, returned, out)
    }

    fn close_recording(&self, state: Recorder, out: &mut [u8], answer: &mut [u64]) -> u32 {
        let returned = Peer.close_recording(state, out, answer);
        self.spoil_byte(Fault::ClosedByte, returned, out)
    }

    fn salvage(&self, file: &[u8], out: &mut [u8], answer: &mut [u64]) -> u32 {
        let returned = Peer.salvage(file, out, answer);
        self.spoil(Fault::Dropped, returned, answer, 4);
        self.spoil(Fault::StopPlace, returned, answer, 7);
        self.spoil_byte(Fault::SalvagedByte, returned, out)
    }

    fn command(&self, message: &[u8], answer: &mut [u64]) -> u32 {
        let returned = Peer.command(message, answer);
        self.spoil(Fault::CommandNumber, returned, answer, 2)
    }

    fn sum(&self, one: Value, two: Value, answer: &mut [u64]) -> u32 {
        let returned = Peer.sum(one, two, answer);
        self.spoil(Fault::SumBits, returned, answer, 3)
    }

    fn difference(&self, one: Value, two: Value, answer: &mut [u64]) -> u32 {
        let returned = Peer.difference(one, two, answer);
        self.spoil(Fault::DifferenceDisplay, returned, answer, 6)
    }

    fn take(&self, book: &mut Book, message: &[u8], answer: &mut [u64]) -> u32 {
        let returned = Peer.take(book, message, answer);
        if self.0 == Fault::RefusedBook && returned == 27 {
            book[31].number ^= 1;
        }
        self.spoil(Fault::TakenPlace, returned, answer, 2)
    }

    fn forget(&self, book: &mut Book, code: u8, id: &[u8], answer: &mut [u64]) -> u32 {
        let returned = Peer.forget(book, code, id, answer);
        if self.0 == Fault::ForgottenBook {
            book[0].id[31] ^= 1;
        }
        self.spoil(Fault::Held, returned, answer, 2)
    }

    fn muster(
        &self,
        ledger: &mut Ledger,
        book: &mut Book,
        message: &[u8],
        answer: &mut [u64],
    ) -> u32 {
        if self.0 == Fault::ShortAnswer && answer.len() < 3 {
            return 0;
        }
        let returned = Peer.muster(ledger, book, message, answer);
        if self.0 == Fault::RefusedLedger && returned == 28 {
            ledger[0] ^= 1;
        }
        if self.0 == Fault::MusteredBook && returned == 0 {
            book[0].number ^= 1;
        }
        returned
    }

    fn reckon(&self, recording: &[u8], answer: &mut [u64]) -> u32 {
        let returned = Peer.reckon(recording, answer);
        self.spoil(Fault::Heads, returned, answer, 19)
    }
}

#[test]
fn peer_and_plain_agree() {
    let mut driver = PartsDriver::new(&Peer, &Plain);
    for case in 0..20_000 {
        if let Err(difference) = driver.case(5, case) {
            panic!("{difference}");
        }
    }
    // A thousand times in ten million cases would be twice here.
    for number in 18..=31 {
        assert!(driver.tally().total(number) >= 20, "refusal {number} is hardly reached");
    }
    let by_call = [
        (Call::OpenInto, 14),
        (Call::AskMessage, 16),
        (Call::Record, 15),
        (Call::Record, 14),
        (Call::CloseRecording, 15),
        (Call::CloseRecording, 14),
        (Call::Salvage, 14),
        (Call::Sum, 17),
        (Call::Muster, 26),
        (Call::Muster, 27),
        (Call::Muster, 28),
    ];
    for (call, number) in by_call {
        let times = driver.tally().times(call, number);
        assert!(times >= 20, "refusal {number} of {call:?} is hardly reached");
    }
}

#[test]
fn planted_faults_are_found() {
    for fault in FAULTS {
        let faulty = Faulty(fault);
        let mut driver = PartsDriver::new(&Peer, &faulty);
        let found = (0..20_000).any(|case| driver.case(6, case).is_err());
        assert!(found, "{fault:?} is not found");
    }
}

/// Salvage by the words of its ticket: the next message is the beginning of the
/// rest that is accepted, of which there is one at most.
fn by_its_words(file: &[u8]) -> (Vec<usize>, Stop) {
    let (mut lengths, mut end) = (Vec::new(), 0);
    while end < file.len() {
        let rest = &file[end..];
        let accepted = |&length: &usize| peer::read(&rest[..length], None).is_ok();
        let found: Vec<usize> = (0..=rest.len().min(65_536)).filter(accepted).collect();
        match found[..] {
            [] => {
                let mut refusal = peer::read(&rest[..rest.len().min(65_536)], None).unwrap_err();
                refusal.place += end as u64;
                return (lengths, Stop::Refused(refusal));
            }
            [length] => {
                lengths.push(length);
                end += length;
            }
            _ => panic!("two beginnings are accepted"),
        }
    }
    (lengths, Stop::End)
}

#[test]
fn salvage_as_its_ticket_says_it() {
    let mut made = Recording::default();
    let mut stops = BTreeMap::new();
    let mut tried = 0;
    for case in 0..4_000 {
        generate::recording(&mut Random::of_case(8, case), &mut made);
        if made.bytes.len() > 1_200 {
            continue;
        }
        tried += 1;
        let (lengths, stop) = by_its_words(&made.bytes);
        let mut out = vec![0; made.bytes.len() + 4_000];
        let report = recordings::salvage(&made.bytes, &mut out).expect("room");
        let end: usize = lengths.iter().sum();
        assert_eq!(report.stop, stop);
        assert_eq!(report.kept, lengths.len() as u64);
        assert_eq!(report.dropped, (made.bytes.len() - end) as u64);
        assert_eq!(report.length, (end + 8 * lengths.len() + 10) as u64);
        assert_eq!(out[..end], made.bytes[..end]);
        assert_eq!(recordings::open(&out[..report.length as usize]), Ok(report.kept));
        let number = if let Stop::Refused(refusal) = stop { refusal.number } else { 0 };
        *stops.entry(number).or_insert(0) += 1;
    }
    assert!(tried > 2_000);
    for number in [0, 1, 2, 4, 5, 6, 9] {
        assert!(stops.contains_key(&number), "no salvage stopped by {number}: {stops:?}");
    }
}

#[test]
fn every_command_right_and_wrong() {
    let mut message = Vec::new();
    let mut accepted = [0; 19];
    for case in 0..60_000 {
        generate::command(&mut Random::of_case(9, case), &mut message);
        if let Ok(number) = commands::command(&message) {
            accepted[number as usize] += 1;
        }
    }
    assert!(accepted[1..].iter().all(|&times| times >= 100), "{accepted:?}");
}

#[test]
fn every_pair_of_units() {
    let mut pairs = BTreeMap::new();
    for case in 0..200_000 {
        let [one, two] = generate::operands(&mut Random::of_case(10, case));
        if (one.kind, two.kind) == (10, 10) {
            *pairs.entry((one.unit, two.unit)).or_insert(0) += 1;
        }
    }
    let known = || (0..29).chain(100..107);
    for (one, two) in known().flat_map(|one| known().map(move |two| (one, two))) {
        assert!(pairs.contains_key(&(one, two)), "units {one} and {two} do not meet");
    }
}

/// The status and the decks of a muster that was applied.
fn applied(message: &[u8]) -> (u8, Vec<usize>) {
    let mut table = [0; 12];
    let reading = peer::read(message, Some(&mut table)).expect("accepted");
    let fields = table.chunks(6).take(reading.fields as usize);
    let decks = fields.map(|field| usize::from(message[field[2] as usize])).collect();
    (message[reading.frames[6].0 as usize + 1], decks)
}

#[test]
fn heads_are_arrivals_less_departures() {
    let mut message = Vec::new();
    for case in 0..2_000 {
        let mut random = Random::of_case(11, case);
        let mut run = Run::new(&mut random);
        let (mut heads, mut book) = ([0; 16], senders::empty());
        let (mut each, mut all) = ([0_i64; 16], 0_i64);
        for _ in 0..60 {
            run.muster(&mut random, &mut message);
            let before = (heads, book);
            if ledger::muster(&mut heads, &mut book, &message).is_err() {
                assert_eq!((heads, book), before);
                continue;
            }
            assert_eq!(
                ledger::muster(&mut heads, &mut book, &message).map_err(|refusal| refusal.number),
                Err(match applied(&message) {
                    (2 | 3, decks) if heads[decks[decks.len() - 1]] == 0 => 30,
                    _ => 27,
                })
            );
            match applied(&message) {
                (1, decks) => (each[decks[0]], all) = (each[decks[0]] + 1, all + 1),
                (3, decks) => (each[decks[0]], all) = (each[decks[0]] - 1, all - 1),
                (_, decks) => {
                    each[decks[0]] += 1;
                    each[decks[1]] -= 1;
                }
            }
            assert_eq!(heads.map(i64::from), each);
            assert_eq!(heads.map(i64::from).iter().sum::<i64>(), all);
        }
    }
}
