//! The decks of a season, in every way that they can be asked for.

mod common;

use std::fs;

use common::{
    bytes, fed, fine, folder, message, muster, ran, refused, repository, sample, text, word,
};

#[test]
fn ten_people_sleep_on_deck_seven() {
    assert_eq!(ran(&["decks", "season.rec", "--deck", "7"]), fine("10\n"));
    assert_eq!(ran(&["decks", "season.rec", "--deck=7", "--at", "27"]), fine("14\n"));
    let wanted = "{\"deck\": 7, \"heads\": 10}\n";
    assert_eq!(ran(&["decks", "season.rec", "--deck", "7", "--json"]), fine(wanted));
}

#[test]
fn the_decks_are_those_of_the_program() {
    let stdout = fs::read_to_string(repository("crates/decks/stdout")).expect("a file");
    let printed = ran(&["decks", "season.rec"]).out;
    let decks: Vec<&str> = printed.lines().take(16).collect();
    assert_eq!(decks, stdout.lines().take(16).collect::<Vec<_>>());
    let rest: Vec<&str> = printed.lines().skip(16).collect();
    let wanted = [
        "applied 63 refused 13 passed over 1",
        "refused 21 times 2: wrong status or number of fields",
        "refused 22 times 1: field code that cannot stand here",
        "refused 26 times 1: sender id above 32 bytes",
        "refused 27 times 5: message number not greater",
        "refused 28 times 1: no place free for a new sender",
        "refused 29 times 1: no such deck",
        "refused 30 times 2: no head on the deck left",
    ];
    assert_eq!(rest, wanted);
    let reckoned = sim0mq::reckon(&sample("season.rec")).expect("a recording");
    assert_eq!((reckoned.applied(), reckoned.refused()), (63, 13 + 1));
    let wanted = "{\"messages\": 77, \"decks\": [1, 0, 29, 5, 0, 0, 0, 10, 1, 3, 0, 0, 0, 0, 0, \
                  0], \"applied\": 63, \"refused\": {\"21\": 2, \"22\": 1, \"26\": 1, \"27\": 5, \
                  \"28\": 1, \"29\": 1, \"30\": 2}, \"passed_over\": 1}\n";
    assert_eq!(ran(&["decks", "season.rec", "--json"]), fine(wanted));
}

/// A recording of six musters and one other message: two heads join deck 7, one comes again, one
/// moves to deck 3, one moves where it is, another message, one leaves.
fn small() -> Vec<u8> {
    let messages = [
        muster(1, 1, &[7]),
        muster(2, 1, &[7]),
        muster(2, 1, &[7]),
        muster(3, 2, &[3, 7]),
        muster(4, 2, &[3, 3]),
        message(&text(b"FM.4"), 9, 1, &[]),
        muster(5, 3, &[7]),
    ];
    bytes(&["record", "-o", "-", "-"], &messages.concat()).stdout
}

#[test]
fn the_history_has_a_line_for_each_message_that_changed_heads() {
    let small = small();
    let wanted =
        "0 deck 7 heads 1\n1 deck 7 heads 2\n3 deck 3 heads 1 deck 7 heads 1\n6 deck 7 heads 0\n";
    assert_eq!(fed(&["decks", "-", "--history"], &small), fine(wanted));
    let wanted = "3 deck 3 heads 1\n";
    assert_eq!(fed(&["decks", "-", "--history", "--deck", "3"], &small), fine(wanted));
    let wanted = "0 deck 7 heads 1\n";
    assert_eq!(fed(&["decks", "-", "--history", "--at", "0"], &small), fine(wanted));
    let wanted = "[{\"k\": 3, \"decks\": [{\"deck\": 3, \"heads\": 1}, {\"deck\": 7, \"heads\": \
                  1}]},\n {\"k\": 6, \"decks\": [{\"deck\": 7, \"heads\": 0}]}]\n";
    let json = fed(&["decks", "-", "--history", "--json"], &small).out;
    assert!(json.ends_with(&wanted[1..]), "{json}");
    let end = fed(&["decks", "-"], &small).out;
    assert!(end.ends_with(
        "applied 5 refused 1 passed over 1\nrefused 27 times 1: message number not greater\n"
    ));
}

#[test]
fn there_is_nothing_after_a_message_that_is_not_there() {
    let none = sim0mq::RefusalKind::NoField.meaning();
    let wanted = refused("refused 16 at 0", "standard input, message 7", none);
    assert_eq!(fed(&["decks", "-", "--at", "7"], &small()), wanted);
    assert_eq!(fed(&["decks", "-", "--at", "6", "--deck", "3"], &small()), fine("1\n"));
}

#[test]
fn the_picture_has_the_numbers_and_no_name() {
    let folder = folder("picture");
    let svg = folder.join("decks.svg");
    let drawn = ran(&["decks", "season.rec", "--deck", "7", "--svg", word(&svg)]);
    assert_eq!(drawn, fine("10\n"));
    let text = fs::read_to_string(&svg).expect("a picture");
    assert!(text.starts_with("<svg ") && text.ends_with("</svg>\n"));
    assert!(text.contains(">29</text>") && text.contains(">10, most 14</text>"));
    assert_eq!(text.matches("class=\"bar\"").count(), 16);
    assert_eq!(text.matches("class=\"step\"").count(), 7);
    for name in ["gangway", "SEA1", "MUS", "SHORE"] {
        assert!(!text.contains(name), "{name}");
    }
    assert_eq!(fs::read(&svg).expect("a picture"), sample("season.svg"));
    assert_eq!(ran(&["decks", "season.rec", "--svg", word(&svg)]).status, 2);
    assert_eq!(ran(&["decks", "season.rec", "--svg", word(&svg), "--force"]).status, 0);
    let empty = bytes(&["record", "-o", "-", "/dev/null"], b"").stdout;
    assert_eq!(
        fed(&["decks", "-", "--svg", word(&svg), "--force", "--deck", "0"], &empty),
        fine("0\n")
    );
}
