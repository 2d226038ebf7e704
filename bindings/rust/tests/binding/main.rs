//! The binding against the rules: what each call answers through it.

mod asking;
mod blanking;
mod commands;
mod musters;
mod reading;
mod recordings;
mod refusals;
mod salvaging;
mod secrecy;
mod senders;
mod summing;
mod writing;

use sim0mq::{Recorder, Refusal};

/// The message of the manual's section 2.3.6: 77 bytes, the status at 64, the count at 65, its one
/// field, the double 0.2, at 68.
const S: &[u8; 77] = b"\x09\0\0\0\x05SIM01\x09\0\0\0\x09IDVV.14.2\x09\0\0\0\x04MC.1\
    \x09\0\0\0\x05MM1.4\x09\0\0\0\x06DSOL.3\x03\0\0\0\0\0\0\0\x7C\0\x02\x01\0\x01\
    \x05\x3F\xC9\x99\x99\x99\x99\x99\x9A";

/// The shortest message: four ids of two bytes, and no field.
const SHORT: &[u8; 35] = b"\x09\0\0\0\x05SIM01\x01\0\0\x01\0\0\x01\0\0\x01\0\0\
    \x03\0\0\0\0\0\0\0\0\0\x01\0\0";

/// S with some of its bytes set.
fn with(bytes: &[(usize, u8)]) -> Vec<u8> {
    let mut message = S.to_vec();
    for &(place, byte) in bytes {
        message[place] = byte;
    }
    message
}

/// The header of S, declaring this many fields, and this payload.
fn carrying(fields: u16, payload: &[u8]) -> Vec<u8> {
    [&S[..66], &fields.to_be_bytes(), payload].concat()
}

/// A message of this type, number, status and fields, from the sender `GATE`: its type frame is at
/// 25.
fn of_type(id: &str, number: i64, status: u8, fields: &[&[u8]]) -> Vec<u8> {
    let mut message =
        b"\x09\0\0\0\x05SIM01\x01\0\x01\x09\0\0\0\x04GATE\x01\0\x02\x09\0\0\0".to_vec();
    message.push(id.len() as u8);
    message.extend(id.as_bytes());
    message.push(3);
    message.extend(number.to_be_bytes());
    message.extend([0, status, 0, fields.len() as u8]);
    message.extend(fields.concat());
    message
}

/// The recording of these messages.
fn recorded(messages: &[&[u8]]) -> Vec<u8> {
    let mut recorder = Recorder::new();
    for message in messages {
        recorder.add(message).unwrap();
    }
    recorder.finish().unwrap()
}

/// The number and the place of a refusal.
fn told(refusal: Refusal) -> (u8, usize) {
    (refusal.number(), refusal.place())
}
