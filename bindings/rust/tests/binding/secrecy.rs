//! What `Debug` shows: kinds, places and lengths, and nothing that a message carries.

use std::fmt::Debug;

use sim0mq::{blanked, command, read, reckon, salvage, Command, Header, Ledger, Mark, Message};
use sim0mq::{Messages, Reckoned, Recorder, Recording, Salvaged, Senders, Stop, Value, Writer};

use crate::{carrying, of_type, recorded, S};

/// A payload of a text, a number and a price.
const PAYLOAD: &[u8] =
    b"\x09\0\0\0\x05Alice\x02\x07\x5B\xCD\x15\x1A\x65\x03\xD2\x15\x40\xA3\x88\0\0\0\0\0";

/// A message of the same build as S with that payload, where all that it carries is other: ids,
/// message number, status, text, number, mark and price.
const OTHER: &[u8] = b"\x09\0\0\0\x05SIM01\x09\0\0\0\x09idvv-25-3\x09\0\0\0\x04mc-2\
    \x09\0\0\0\x05mm2-5\x09\0\0\0\x06dsol-4\x03\x91\x92\x93\x94\x95\x96\x97\x98\0\x03\x01\0\x03\
    \x09\0\0\0\x05Bobby\x02\x01\x02\x03\x04\x1A\x6A\0\x08\x02\x01\x02\x03\x04\x05\x06\x07\x08";

/// Fails where the `Debug` of this tells a text, an id or a number of the message with `PAYLOAD`.
fn keeps_silent(shown: &dyn Debug) {
    for shown in [format!("{shown:?}"), format!("{shown:#?}")] {
        for secret in ["Alice", "IDVV", "MC.1", "MM1", "DSOL", "123456789", "2500", "978", "124"] {
            assert!(!shown.contains(secret), "{secret} is shown");
        }
    }
}

/// All that can be shown of a message.
fn shown(message: &Message) -> String {
    let ids = [message.run(), message.sender(), message.receiver(), message.message_type()];
    let values: Vec<_> = message.fields().map(|field| field.value()).collect();
    let (summary, fields, header) = (message.summary(), message.fields(), message.header());
    format!("{message:?} {summary:?} {ids:?} {header:?} {fields:?} {values:?}")
}

#[test]
fn values_and_marks_show_their_kind_alone() {
    let mark = Mark { unit: 101, currency: 978, display: 21 };
    let values = [
        (Value::Byte(-99), "Byte(..)"),
        (Value::Short(-99), "Short(..)"),
        (Value::Int(-99), "Int(..)"),
        (Value::Long(-99), "Long(..)"),
        (Value::Float(0.2), "Float(..)"),
        (Value::Double(0.2), "Double(..)"),
        (Value::Boolean(true), "Boolean(..)"),
        (Value::Char8(99), "Char8(..)"),
        (Value::Char16(99), "Char16(..)"),
        (Value::FloatUnit(0.2, mark), "FloatUnit(..)"),
        (Value::DoubleUnit(0.2, mark), "DoubleUnit(..)"),
        (Value::NotNumber(26), "NotNumber(..)"),
    ];
    for (value, shown) in values {
        assert_eq!(format!("{value:?}"), shown);
        assert_eq!(format!("{value:#?}"), shown);
    }
    assert_eq!(format!("{mark:?}"), "Mark(..)");
}

#[test]
fn messages_show_how_they_are_built() {
    let message = read(S).unwrap();
    assert_eq!(format!("{message:?}"), "Message { length: 77, fields: 1, steps: 9, .. }");
    let field = "Field { k: 0, code: 5, place: 68, first: 69, len: 8, marks: 0, values: 1 }";
    assert_eq!(format!("{:?}", message.field(0).unwrap()), field);
    assert_eq!(format!("{:?}", message.fields()), format!("[{field}]"));
    assert_eq!(format!("{:?}", message.sender()), "Id { code: 9, place: 24, len: 4 }");
    let header = "Header { ids_len: 44, fields: 1, count_type: Some(1), .. }";
    assert_eq!(format!("{:?}", message.header()), header);
}

#[test]
fn nothing_that_a_message_carries_is_shown() {
    let bytes = carrying(3, PAYLOAD);
    let message = read(&bytes).unwrap();
    keeps_silent(&message);
    keeps_silent(message.summary());
    keeps_silent(&message.fields());
    keeps_silent(&message.header());
    keeps_silent(&[message.run(), message.sender(), message.receiver(), message.message_type()]);
    for field in &message {
        keeps_silent(&field);
        keeps_silent(&field.value());
    }
    keeps_silent(&read(&bytes[..80]));
}

#[test]
fn messages_of_one_build_show_the_same() {
    let bytes = carrying(3, PAYLOAD);
    let copy = blanked(&bytes).unwrap();
    let message = read(&bytes).unwrap();
    assert_eq!(shown(&message), shown(&read(&copy).unwrap()));
    assert_eq!(shown(&message), shown(&read(OTHER).unwrap()));
}

#[test]
fn writers_show_how_far_they_are() {
    let mut out = [0; 300];
    let ids = &S[10..54];
    let header = Header { ids, number: 124, status: 2, fields: 2, count_type: Some(1) };
    let mut writer = Writer::open(&mut out, &header).unwrap();
    writer.add(b"\x09\0\0\0\x05Alice").unwrap();
    keeps_silent(&writer);
    assert_eq!(format!("{writer:?}"), "Writer { written: 78, declared: 2, added: 1, room: 300 }");
    let unfinished = writer.close().unwrap_err();
    keeps_silent(&unfinished);
    keeps_silent(&unfinished.refusal());
}

#[test]
fn recordings_show_their_measures() {
    let bytes = carrying(3, PAYLOAD);
    let (whole, length) = (recorded(&[&bytes, S]), bytes.len());
    let recording = Recording::open(&whole).unwrap();
    keeps_silent(&recording);
    keeps_silent(&recording.iter());
    let shown = format!("Recording {{ length: {}, messages: 2 }}", whole.len());
    assert_eq!(format!("{recording:?}"), shown);
    assert_eq!(
        format!("{:?}", recording.iter()),
        format!("[0..{length}, {length}..{}]", length + 77)
    );
    let mut recorder = Recorder::new();
    recorder.add(&bytes).unwrap();
    keeps_silent(&recorder);
    assert_eq!(format!("{recorder:?}"), format!("Recorder {{ written: {length}, messages: 1 }}"));
    let salvaged = salvage(&whole[..length + 5]);
    keeps_silent(&salvaged);
    let refusal = salvage(&bytes[..80]).stop();
    let stop = format!("At(Refusal {{ kind: EndsEarly, place: {} }})", length + 5);
    let shown =
        format!("Salvaged {{ length: {}, kept: 1, dropped: 5, stop: {stop} }}", length + 18);
    assert_eq!(format!("{salvaged:?}"), shown);
    assert_eq!(format!("{refusal:?}"), "At(Refusal { kind: EndsEarly, place: 80 })");
    keeps_silent(&command(&bytes));
}

#[test]
fn books_show_their_counts() {
    let mut senders = Senders::new();
    senders.take(S).unwrap();
    keeps_silent(&senders);
    assert_eq!(format!("{senders:?}"), "Senders { held: 1 }");
    let mut ledger = Ledger::new();
    for number in 1..=124 {
        ledger.muster(&of_type("MUS.1", number, 1, &[&[0, 7]])).unwrap();
    }
    keeps_silent(&ledger);
    assert_eq!(format!("{ledger:?}"), "Ledger { senders: Senders { held: 1 }, .. }");
    let reckoned = reckon(&recorded(&[S, &of_type("MUS.1", 124, 1, &[&[0, 7]])])).unwrap();
    keeps_silent(&reckoned);
    assert_eq!(format!("{reckoned:?}"), "Reckoned { applied: 1, refused: 1, .. }");
}

/// Every type may go to another thread.
fn goes_anywhere<T: Send + Sync>() {}

#[test]
fn every_type_goes_to_another_thread() {
    goes_anywhere::<(Message, Value, Mark, Header, Writer)>();
    goes_anywhere::<(Recording, Messages, Recorder, Salvaged, Stop)>();
    goes_anywhere::<(Command, Senders, Ledger, Reckoned)>();
}
