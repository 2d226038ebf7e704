//! Reads the message of the manual's section 2.3.6, shows how a damaged one is refused, blanks the
//! message, and writes it anew from what was read, its field as the value that was asked for.
//! Prints what the C example prints.

use std::process::ExitCode;

use sim0mq::{blank, judge, read, Message, Refusal, Writer, MOST_BYTES};

/// Run IDVV.14.2, sender MC.1, receiver MM1.4, type DSOL.3, number 124, status 2, one double, 0.2.
const MESSAGE: &[u8; 77] = b"\x09\0\0\0\x05SIM01\x09\0\0\0\x09IDVV.14.2\x09\0\0\0\x04MC.1\
    \x09\0\0\0\x05MM1.4\x09\0\0\0\x06DSOL.3\x03\0\0\0\0\0\0\0\x7C\0\x02\x01\0\x01\
    \x05\x3F\xC9\x99\x99\x99\x99\x99\x9A";

/// Says how the message is built.
fn listed(message: &Message) {
    let (length, fields, steps) = (message.length(), message.fields().len(), message.steps());
    println!("read: length {length}, fields {fields}, steps {steps}");
    for field in message {
        let (k, code, place) = (field.k(), field.code(), field.place());
        println!(
            "field {k}: code {code} at {place}, {} value bytes from {}",
            field.len(),
            field.first()
        );
    }
}

/// Says how the message is refused where its status, at 64, is 4.
fn damaged() {
    let mut damaged = *MESSAGE;
    damaged[64] = 4;
    if let Err(refusal) = judge(&damaged) {
        println!("with status 4: refused {} at {}", refusal.number(), refusal.place());
    }
}

/// Says how many bytes of the blanked copy are others than the message's.
fn blanked() -> Result<(), Refusal> {
    let mut copy = [0; MOST_BYTES];
    let length = blank(MESSAGE, &mut copy)?;
    let differ = MESSAGE.iter().zip(&copy[..length]).filter(|(a, b)| a != b).count();
    println!("blanked: {length} bytes, {differ} of them differ");
    Ok(())
}

/// Writes the message anew, and says whether it is the same.
fn rewritten(message: &Message) -> Result<bool, Refusal> {
    let mut out = [0; MOST_BYTES];
    let mut writer = Writer::open(&mut out, &message.header())?;
    println!("opened: {} bytes of header", writer.written());
    for field in message {
        println!("added: {} bytes", writer.add_value(field.value()?)?);
    }
    let written = writer.close()?;
    let same = written == message.bytes();
    println!(
        "rewritten: {} bytes, {}",
        written.len(),
        if same { "the same" } else { "not the same" }
    );
    Ok(same)
}

/// Does all of it; answers whether the message came back the same.
fn run() -> Result<bool, Refusal> {
    let message = read(MESSAGE)?;
    listed(&message);
    damaged();
    blanked()?;
    rewritten(&message)
}

fn main() -> ExitCode {
    match run() {
        Ok(true) => ExitCode::SUCCESS,
        Ok(false) => ExitCode::FAILURE,
        Err(refusal) => {
            println!("{refusal}");
            ExitCode::FAILURE
        }
    }
}
