//! The driver finds no difference where there is none and finds planted ones.

mod common;

use common::Faulty;
use compare::c_peer::CPeer;
use compare::driver::Driver;
use compare::peer::{State, Value};
use compare::plain::Plain;
use compare::subject::{Opening, Peer, Subject};

/// A call that the faulty subject answers wrongly.
#[derive(Clone, Copy, Debug, PartialEq)]
enum Fault {
    TableEntry,
    Steps,
    FrameCode,
    ValueBits,
    ViewFirst,
    BlankByte,
    HeaderByte,
    FieldByte,
    ScalarState,
    CloseState,
    ShortAnswer,
}

const FAULTS: [Fault; 11] = [
    Fault::TableEntry,
    Fault::Steps,
    Fault::FrameCode,
    Fault::ValueBits,
    Fault::ViewFirst,
    Fault::BlankByte,
    Fault::HeaderByte,
    Fault::FieldByte,
    Fault::ScalarState,
    Fault::CloseState,
    Fault::ShortAnswer,
];

impl Subject for Faulty<Fault> {
    fn name(&self) -> &'static str {
        "faulty"
    }

    fn read(&self, message: &[u8], table: &mut [u32], answer: &mut [u64]) -> u32 {
        let returned = Peer.read(message, table, answer);
        if let (Fault::TableEntry, 1..=19, Some(entry)) = (self.0, returned, table.first_mut()) {
            *entry ^= 1;
        }
        returned
    }

    fn judge(&self, message: &[u8], answer: &mut [u64]) -> u32 {
        let returned = Peer.judge(message, answer);
        self.spoil(Fault::Steps, returned, answer, 4);
        self.spoil(Fault::FrameCode, returned, answer, 20)
    }

    fn value(&self, message: &[u8], k: u64, answer: &mut [u64]) -> u32 {
        let returned = Peer.value(message, k, answer);
        self.spoil(Fault::ValueBits, returned, answer, 3)
    }

    fn view(&self, message: &[u8], k: u64, answer: &mut [u64]) -> u32 {
        let returned = Peer.view(message, k, answer);
        self.spoil(Fault::ViewFirst, returned, answer, 2)
    }

    fn blank(&self, message: &[u8], out: &mut [u8], answer: &mut [u64]) -> u32 {
        let returned = Peer.blank(message, out, answer);
        self.spoil_byte(Fault::BlankByte, returned, out)
    }

    fn open(&self, opening: &Opening, out: &mut [u8], answer: &mut [u64]) -> u32 {
        let returned = Peer.open(opening, out, answer);
        self.spoil_byte(Fault::HeaderByte, returned, out)
    }

    fn add(&self, state: State, field: &[u8], out: &mut [u8], answer: &mut [u64]) -> u32 {
        let returned = Peer.add(state, field, out, answer);
        self.spoil_byte(Fault::FieldByte, returned, out)
    }

    fn add_scalar(&self, state: State, value: Value, out: &mut [u8], answer: &mut [u64]) -> u32 {
        let returned = Peer.add_scalar(state, value, out, answer);
        self.spoil(Fault::ScalarState, returned, answer, 5)
    }

    fn close(&self, state: State, answer: &mut [u64]) -> u32 {
        if self.0 == Fault::ShortAnswer && answer.len() < 7 {
            return 0;
        }
        let returned = Peer.close(state, answer);
        self.spoil(Fault::CloseState, returned, answer, 6)
    }
}

/// Runs 20,000 cases of a subject against the peer, which must agree and reach every refusal.
#[track_caller]
fn agrees_with_the_peer(subject: &dyn Subject) {
    let mut driver = Driver::new(&Peer, subject);
    for case in 0..20_000 {
        if let Err(difference) = driver.case(5, case) {
            panic!("{difference}");
        }
    }
    for number in (1..=17).chain([19]) {
        assert!(driver.tally().total(number) >= 20, "refusal {number} is hardly reached");
    }
}

#[test]
fn peer_and_plain_agree() {
    agrees_with_the_peer(&Plain);
}

#[test]
fn peer_and_c_agree() {
    agrees_with_the_peer(&CPeer);
}

#[test]
fn planted_faults_are_found() {
    for fault in FAULTS {
        let faulty = Faulty(fault);
        let mut driver = Driver::new(&Peer, &faulty);
        let found = (0..20_000).any(|case| driver.case(6, case).is_err());
        assert!(found, "{fault:?} is not found");
    }
}
