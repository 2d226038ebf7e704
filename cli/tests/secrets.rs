//! Nothing that a message carries is in an error text, whatever is wrong with the message.

mod common;

use common::{bytes, fed, folder, message, text, word};

/// The text that every part of the messages carries which can carry one.
const SECRET: &[u8] = b"SECRET";

/// A message with the text in its ids and in a field.
fn secret() -> Vec<u8> {
    let field = [&[9, 0, 0, 0, 6], SECRET].concat();
    let plain = message(&text(SECRET), 1, 1, &[&field]);
    // the other ids, of which the first two are as long
    let at = plain.windows(6).position(|six| six == b"purser").expect("the sender");
    [&plain[..at], SECRET, &plain[at + 6..]].concat()
}

/// Runs the command, and holds what it tells to have neither the text nor a part of it.
fn told(words: &[&str], input: &[u8]) {
    let ran = fed(words, input);
    assert!(!ran.err.contains("SECRET") && !ran.err.contains("ECRE"), "{}", ran.err);
    if ran.status == 1 && words[0] != "check" {
        assert!(ran.out.starts_with("refused ") && ran.out.lines().count() == 1, "{}", ran.out);
    }
    assert!(ran.status < 2, "{}", ran.err);
}

#[test]
fn no_error_text_has_a_byte_of_a_message() {
    let message = secret();
    let recording = bytes(&["record", "-o", "-", "-"], &message.repeat(3)).stdout;
    let out = folder("secrets").join("out");
    for at in (0..message.len()).step_by(2) {
        for byte in [0, 200] {
            let mut bad = message.clone();
            bad[at] = byte;
            told(&["check", "-"], &bad);
            told(&["value", "-", "0"], &bad);
            told(&["record", "-o", word(&out), "--force", "-"], &bad);
            let mut bad = recording.clone();
            bad[message.len() + at] = byte;
            told(&["check", "-"], &bad);
            told(&["decks", "-"], &bad);
            told(&["messages", "-"], &bad);
            told(&["show", "-", "1"], &bad);
            told(&["salvage", "-", "-o", word(&out), "--force"], &bad);
        }
    }
}
