//! Each line of the commands' table, with its real output.

mod common;

use std::fs;

use common::{bytes, fed, fine, folder, message, muster, names, ran, refused, repository};
use common::{sample, text, word, Ran};
use sim0mq::RefusalKind;

/// What a program of the repository prints for its own standard input.
fn printed(program: &str) -> (Vec<u8>, Vec<u8>) {
    let read = |name| fs::read(repository("crates").join(program).join(name)).expect("a file");
    (read("stdin"), read("stdout"))
}

#[test]
fn list_prints_what_the_program_prints() {
    let (stdin, stdout) = printed("list");
    let wanted = String::from_utf8(stdout).expect("a listing");
    assert_eq!(fed(&["list"], &stdin), fine(&wanted));
    assert_eq!(fed(&["list", "-"], &stdin), fine(&wanted));
    assert_eq!(ran(&["list", "message.bin"]), fine(&wanted));
    assert_eq!(wanted, "SIM01 fields 1 steps 9 length 77\n0 5 68 69 8 0 1\n");
    let wanted =
        "{\"edition\": \"SIM01\", \"fields\": 1, \"steps\": 9, \"length\": 77, \"table\": \
                  [{\"k\": 0, \"code\": 5, \"place\": 68, \"first\": 69, \"bytes\": 8, \
                  \"marks\": 0, \"values\": 1}]}\n";
    assert_eq!(ran(&["list", "message.bin", "--json"]), fine(wanted));
}

#[test]
fn list_has_a_line_for_each_field() {
    let two_columns =
        [&[31, 0, 0, 0, 1, 0, 0, 0, 2][..], &[16, 11, 101, 3, 0xd2, 21], &[0, 0, 0, 0, 1, 1, 1, 1]];
    let fields: [&[u8]; 3] = [&[0, 5], &[9, 0, 0, 0, 2, 65, 66], &two_columns.concat()];
    let message = message(&text(b"X"), 1, 1, &fields);
    let wanted =
        "SIM01 fields 3 steps 13 length 94\n0 0 62 63 1 0 1\n1 9 64 69 2 0 2\n2 31 71 86 8 2 2\n";
    assert_eq!(fed(&["list"], &message), fine(wanted));
}

#[test]
fn what_is_refused_is_told_by_number_and_place() {
    let empty = "the bytes end too early";
    assert_eq!(ran(&["list"]), refused("refused 1 at 0", "standard input", empty));
    let mut bad = sample("message.bin");
    bad[64] = 4;
    let status = refused("refused 6 at 64", "standard input", "status not 1 to 3");
    assert_eq!(fed(&["list"], &bad), status);
    assert_eq!(fed(&["blank"], &bad), status);
    assert_eq!(fed(&["value", "-", "0"], &bad), status);
    assert_eq!(fed(&["check", "-"], &bad), status);
    let json = "{\"refused\": 6, \"at\": 64, \"meaning\": \"status not 1 to 3\"}";
    let err = "sim0mq: standard input: status not 1 to 3\n".to_string();
    assert_eq!(fed(&["list", "--json"], &bad), Ran { status: 1, out: format!("{json}\n"), err });
    let tail = "trailer or index of a recording wrong";
    for words in [["messages", "cut.rec"], ["decks", "cut.rec"]] {
        assert_eq!(ran(&words), refused("refused 18 at 0", "cut.rec", tail));
    }
    let left = "bytes left after the last item";
    assert_eq!(ran(&["check", "cut.rec"]), refused("refused 13 at 77", "cut.rec", left));
}

#[test]
fn blank_writes_the_programs_copy() {
    let (stdin, stdout) = printed("blank");
    assert_eq!(bytes(&["blank"], &stdin).stdout, stdout);
    let folder = folder("blank");
    let copy = folder.join("copy.bin");
    assert_eq!(ran(&["blank", "message.bin", "-o", word(&copy)]), fine(""));
    assert_eq!(fs::read(&copy).expect("the copy"), stdout);
    assert_eq!(names(&folder), ["copy.bin"]);
}

#[test]
fn blank_of_a_recording_is_the_librarys() {
    let season = sample("season.rec");
    let wanted = sim0mq::Recording::open(&season).expect("a recording").blanked();
    assert!(wanted != season);
    assert_eq!(bytes(&["blank", "season.rec"], b"").stdout, wanted);
    let (old, _) = printed("salvage");
    assert_eq!(fed(&["blank"], &old).out, "refused 13 at 77\n");
    let mut damaged = season;
    damaged[0] = 8;
    let start = "not the start of a message";
    let wanted = refused("refused 2 at 0", "standard input", start);
    assert_eq!(fed(&["blank"], &damaged), wanted);
    damaged[0] = 9;
    damaged[68 + 5] = b'X';
    let wanted = refused("refused 2 at 73", "standard input", start);
    assert_eq!(fed(&["blank"], &damaged), wanted);
}

#[test]
fn a_recording_of_the_first_edition_stays_one() {
    let tail = [0, 0, 0, 0, 0, 77, 0, 0, 0, 77, 0, 0, 0, 1, 0, 1];
    let old = [&sample("message.bin")[..], &tail].concat();
    let wanted = sim0mq::Recording::open(&old).expect("a recording").blanked();
    assert_eq!(bytes(&["blank"], &old).stdout, wanted);
    assert_eq!(wanted, [&bytes(&["blank", "message.bin"], b"").stdout[..], &tail].concat());
    assert_eq!(fed(&["messages", "-"], &old), fine("0 0 77 1 9 DSOL.3 2\n"));
}

/// A message with one scalar field.
fn scalar(field: &[u8]) -> Vec<u8> {
    message(&text(b"X"), 1, 1, &[field])
}

/// Scalar fields, each with its line and with its members in JSON.
const SCALARS: [(&[u8], &str, &str); 15] = [
    (&[0, 0x80], "-128", "\"byte\", \"value\": -128"),
    (&[1, 0xff, 0xfe], "-2", "\"short\", \"value\": -2"),
    (&[2, 0, 1, 0, 0], "65536", "\"int\", \"value\": 65536"),
    (
        &[3, 0x80, 0, 0, 0, 0, 0, 0, 0],
        "-9223372036854775808",
        "\"long\", \"value\": -9223372036854775808",
    ),
    (&[4, 0x3f, 0x80, 0, 0], "1.0", "\"float\", \"value\": 1.0"),
    (&[5, 0x7f, 0xf0, 0, 0, 0, 0, 0, 0], "inf", "\"double\", \"value\": \"Infinity\""),
    (&[5, 0xff, 0xf0, 0, 0, 0, 0, 0, 0], "-inf", "\"double\", \"value\": \"-Infinity\""),
    (&[6, 1], "true", "\"boolean\", \"value\": true"),
    (&[7, 65], "65 'A'", "\"char8\", \"value\": 65"),
    (&[7, 27], "27", "\"char8\", \"value\": 27"),
    (&[8, 0x20, 0xac], "8364", "\"char16\", \"value\": 8364"),
    (&[4, 0x7f, 0xc0, 0, 0], "not a number", "\"not a number\", \"value\": null"),
    (
        &[25, 16, 11, 0x47, 0x6a, 0x60, 0],
        "60000.0 Length in METER, display KILOMETER",
        "\"float with unit\", \"value\": 60000.0, \"unit\": \"Length\", \"in\": \"METER\", \
             \"display\": \"KILOMETER\"",
    ),
    (
        &[26, 101, 3, 0xd2, 21, 0x40, 0xa3, 0x88, 0, 0, 0, 0, 0],
        "2500.0 MoneyPerArea in EUR per HECTARE",
        "\"double with unit\", \"value\": 2500.0, \"unit\": \"MoneyPerArea\", \
             \"currency\": \"EUR\", \"per\": \"HECTARE\"",
    ),
    (
        &[26, 100, 3, 0x48, 0x3f, 0xf0, 0, 0, 0, 0, 0, 0],
        "1.0 Money in USD",
        "\"double with unit\", \"value\": 1.0, \"unit\": \"Money\", \"currency\": \"USD\"",
    ),
];

#[test]
fn value_prints_every_kind_of_scalar() {
    for (field, line, json) in SCALARS {
        let message = scalar(field);
        assert_eq!(fed(&["value", "-", "0"], &message), fine(&format!("{line}\n")));
        let wanted = fine(&format!("{{\"kind\": {json}}}\n"));
        assert_eq!(fed(&["value", "-", "0", "--json"], &message), wanted);
    }
    let wanted = "0.5 Dimensionless\n";
    assert_eq!(fed(&["value", "-", "0"], &scalar(&[25, 0, 0, 0x3f, 0, 0, 0])), fine(wanted));
}

#[test]
fn value_refuses_what_is_no_scalar() {
    let string = scalar(&[9, 0, 0, 0, 1, 65]);
    let wanted = "not a scalar that can be asked or written";
    let wanted = refused("refused 17 at 0", "standard input", wanted);
    assert_eq!(fed(&["value", "-", "0"], &string), wanted);
    let wanted = refused("refused 16 at 0", "message.bin", RefusalKind::NoField.meaning());
    assert_eq!(ran(&["value", "message.bin", "1"]), wanted);
}

#[test]
fn record_makes_the_season_from_its_messages() {
    let folder = folder("record");
    let (mut files, season) = (Vec::new(), sample("season.rec"));
    let recording = sim0mq::Recording::open(&season).expect("a recording");
    for (k, message) in recording.iter().enumerate() {
        files.push(folder.join(format!("{k}.bin")));
        let wanted = fine("");
        assert_eq!(
            ran(&["show", "season.rec", &k.to_string(), "--raw", "-o", word(&files[k])]),
            wanted
        );
        assert_eq!(fs::read(&files[k]).expect("a message"), message);
    }
    let made = folder.join("made.rec");
    let mut words = vec!["record", "-o", word(&made)];
    words.extend(files.iter().map(|file| word(file)));
    assert_eq!(ran(&words), fine(""));
    assert_eq!(fs::read(&made).expect("a recording"), season);
    let end_to_end = recording.iter().collect::<Vec<_>>().concat();
    assert_eq!(bytes(&["record", "-o", "-", "-"], &end_to_end).stdout, season);
    let half = files[1].parent().expect("a folder").join("rest.bin");
    fs::write(&half, recording.iter().skip(1).collect::<Vec<_>>().concat()).expect("a file");
    let output = bytes(&["record", "-o", "-", word(&files[0]), word(&half)], b"");
    assert_eq!(output.stdout, season);
}

#[test]
fn record_tells_where_in_its_file_a_message_is_refused() {
    let folder = folder("record-refused");
    let recording = folder.join("out.rec");
    let mut two = sample("message.bin").repeat(2);
    two[77 + 64] = 4;
    let wanted = refused("refused 6 at 141", "standard input, message 2", "status not 1 to 3");
    assert_eq!(fed(&["record", "-o", word(&recording), "message.bin", "-"], &two), wanted);
    two.truncate(100);
    let wanted =
        refused("refused 1 at 100", "standard input, message 1", "the bytes end too early");
    assert_eq!(fed(&["record", "-o", word(&recording), "-"], &two), wanted);
    assert_eq!(names(&folder), [""; 0]);
    assert_eq!(ran(&["record", "-o", word(&recording), "/dev/null"]), fine(""));
    assert_eq!(ran(&["messages", word(&recording)]), fine(""));
    assert_eq!(ran(&["messages", word(&recording), "--json"]), fine("[]\n"));
}

#[test]
fn record_refuses_a_message_too_many() {
    let message = muster(1, 1, &[0]);
    let most = message.repeat(4096);
    assert_eq!(bytes(&["record", "-o", "-", "-"], &most).status.code(), Some(0));
    let over = RefusalKind::WriterState.meaning();
    let wanted = refused("refused 15 at 0", "standard input, message 4096", over);
    assert_eq!(fed(&["record", "-o", "-", "-"], &message.repeat(4097)), wanted);
}

#[test]
fn messages_prints_a_line_for_each() {
    let first = "0 0 68 1 9 MUS.1 1\n";
    let listed = ran(&["messages", "season.rec"]);
    assert!(listed.status == 0 && listed.out.starts_with(first) && listed.err.is_empty());
    assert_eq!(listed.out.lines().count(), 77);
    let ids: [(&[u8], &str, &str); 6] = [
        (&text(b"MUS.1"), "MUS.1", "\"code\": 9, \"text\": \"MUS.1\""),
        (&text(b""), "\"\"", "\"code\": 9, \"text\": \"\""),
        (
            &text(b"a \"\x1b\xe9"),
            "a\\x20\\x22\\x1b\\xe9",
            "\"code\": 9, \"text\": \"a \\\"\\u001b\\u00e9\"",
        ),
        (
            &[10, 0, 0, 0, 2, 0, 65, 0x20, 0xac],
            "u\"A\\x20ac\"",
            "\"code\": 10, \"text\": \"A\\u20ac\"",
        ),
        (&[1, 0xff, 0xff], "short\"-1\"", "\"code\": 1, \"number\": -1"),
        (&[2, 0, 1, 0, 0], "int\"65536\"", "\"code\": 2, \"number\": 65536"),
    ];
    for (id, shown, json) in ids {
        let message = message(id, 1, 3, &[]);
        let n = message.len();
        let recording = bytes(&["record", "-o", "-", "-"], &message).stdout;
        let wanted = fine(&format!("0 0 {n} 0 8 {shown} 3\n"));
        assert_eq!(fed(&["messages", "-"], &recording), wanted);
        let wanted = format!(
            "[{{\"k\": 0, \"start\": 0, \"length\": {n}, \"fields\": 0, \"steps\": 8, \
             \"type\": {{{json}}}, \"status\": 3}}]\n"
        );
        assert_eq!(fed(&["messages", "-", "--json"], &recording), fine(&wanted));
    }
}

#[test]
fn show_lists_one_message_and_judges_no_other() {
    let wanted = "SIM01 fields 2 steps 10 length 67\n0 0 63 64 1 0 1\n1 0 65 66 1 0 1\n";
    assert_eq!(ran(&["show", "season.rec", "28"]), fine(wanted));
    let mut damaged = sample("season.rec");
    damaged[0] = 0;
    assert_eq!(fed(&["show", "-", "28"], &damaged), fine(wanted));
    let start = "not the start of a message";
    let start = refused("refused 2 at 0", "standard input, message 0", start);
    assert_eq!(fed(&["show", "-", "0"], &damaged), start);
    let none = RefusalKind::NoField.meaning();
    let wanted = refused("refused 16 at 0", "season.rec, message 77", none);
    assert_eq!(ran(&["show", "season.rec", "77"]), wanted);
    let json = ran(&["show", "season.rec", "28", "--json"]);
    assert!(json.out.starts_with("{\"edition\": \"SIM01\", \"fields\": 2, \"steps\": 10"));
    let raw = bytes(&["show", "season.rec", "0", "--raw"], b"").stdout;
    assert_eq!(raw, sample("season.rec")[..68]);
}

#[test]
fn salvage_reports_and_writes_the_programs_recording() {
    let (stdin, stdout) = printed("salvage");
    let folder = folder("salvage");
    let saved = folder.join("saved.rec");
    let report = |err: &str| Ran { status: 0, out: String::new(), err: format!("{err}\n") };
    let wanted = report("kept 3 dropped 11 refused 2 at 189");
    assert_eq!(fed(&["salvage", "-", "-o", word(&saved)], &stdin), wanted);
    assert_eq!(fs::read(&saved).expect("a recording"), stdout);
    assert_eq!(bytes(&["salvage", "cut.rec", "-o", "-"], b"").stdout, stdout);
    let again = folder.join("again.rec");
    let wanted = report("kept 3 dropped 34 refused 2 at 189");
    assert_eq!(ran(&["salvage", word(&saved), "-o", word(&again)]), wanted);
    assert_eq!(fs::read(&again).expect("a recording"), stdout);
    let wanted = report("kept 1 dropped 23 refused 1 at 100");
    assert_eq!(fed(&["salvage", "-", "--force", "-o", word(&again)], &stdin[..100]), wanted);
    let wanted = report("kept 1 dropped 0 stopped at the end");
    assert_eq!(fed(&["salvage", "-", "--force", "-o", word(&again)], &stdin[..77]), wanted);
    let many = stdin[..77].repeat(4097);
    let wanted = report("kept 4096 dropped 77 stopped at 4096 messages");
    assert_eq!(fed(&["salvage", "-", "--force", "-o", word(&again)], &many), wanted);
}

#[test]
fn check_says_which_command_a_message_is() {
    assert_eq!(ran(&["check", "command.bin"]), fine("FM.4 SimStart\n"));
    let json = "{\"command\": \"FM.4\", \"name\": \"SimStart\"}\n";
    assert_eq!(ran(&["check", "command.bin", "--json"]), fine(json));
    let type_ = "message type that is not known here";
    assert_eq!(ran(&["check", "message.bin"]), refused("refused 20 at 43", "message.bin", type_));
    let start = message(&text(b"FM.4"), 1, 1, &[]);
    let both = bytes(&["record", "-o", "-", "-"], &start.repeat(2)).stdout;
    assert_eq!(fed(&["check", "-"], &both), fine("0 FM.4 SimStart\n1 FM.4 SimStart\n"));
    let reset = message(&text(b"FM.7"), 2, 1, &[]);
    let mixed = bytes(&["record", "-o", "-", "-"], &[start, reset].concat()).stdout;
    let err = "sim0mq: standard input: 1 of 2 messages are no commands\n".to_string();
    let out = "0 FM.4 SimStart\n1 refused 21 at 40\n".to_string();
    assert_eq!(fed(&["check", "-"], &mixed), Ran { status: 1, out, err: err.clone() });
    let out = "[{\"k\": 0, \"command\": \"FM.4\", \"name\": \"SimStart\"},\n {\"k\": 1, \
               \"refused\": 21, \"at\": 40, \"meaning\": \"wrong status or number of fields\"}]\n";
    let wanted = Ran { status: 1, out: out.to_string(), err };
    assert_eq!(fed(&["check", "-", "--json"], &mixed), wanted);
}
