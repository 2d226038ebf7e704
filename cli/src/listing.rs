//! The listing of a message: its measures, and a line for each field.

use std::io::Write;

use sim0mq::{Field, Message};

use crate::failure::Failure;
use crate::json;

/// The edition of every message that is accepted.
const EDITION: &str = "SIM01";

/// Writes the listing of a message, as the program `list` prints it.
pub fn write(out: &mut impl Write, message: &Message<'_>) -> Result<(), Failure> {
    let (fields, steps) = (message.fields().len(), message.steps());
    writeln!(out, "{EDITION} fields {fields} steps {steps} length {}", message.length())?;
    for field in message {
        let [k, code, place, first, bytes, marks, values] = row(&field);
        writeln!(out, "{k} {code} {place} {first} {bytes} {marks} {values}")?;
    }
    Ok(())
}

/// Writes the same as JSON.
pub fn write_json(out: &mut impl Write, message: &Message<'_>) -> Result<(), Failure> {
    let (fields, steps) = (message.fields().len(), message.steps());
    let table = json::list(message, |field| {
        let [k, code, place, first, bytes, marks, values] = row(&field);
        format!(
            "{{\"k\": {k}, \"code\": {code}, \"place\": {place}, \"first\": {first}, \
             \"bytes\": {bytes}, \"marks\": {marks}, \"values\": {values}}}"
        )
    });
    let length = message.length();
    Ok(writeln!(
        out,
        "{{\"edition\": \"{EDITION}\", \"fields\": {fields}, \"steps\": {steps}, \
         \"length\": {length}, \"table\": [{table}]}}"
    )?)
}

/// A field's number, and its six numbers of the table.
fn row(field: &Field<'_>) -> [usize; 7] {
    [
        field.k(),
        field.code().into(),
        field.place(),
        field.first(),
        field.len(),
        field.marks(),
        field.values(),
    ]
}
