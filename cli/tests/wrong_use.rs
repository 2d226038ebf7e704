//! Wrong use is told on standard error, by status 2, and nothing is on standard output.

mod common;

use std::fs;

use common::{command, folder, ran, sample, word};

/// Wrong uses, and what is told of each.
const WRONG: [(&[&str], &str); 23] = [
    (&["lsit"], "lsit: no such command; see sim0mq --help"),
    (&["help", "lsit"], "lsit: no such command; see sim0mq --help"),
    (&["--json"], "--json: no such command; see sim0mq --help"),
    (&["list", "a", "b"], "list: too many operands; see sim0mq list --help"),
    (&["list", "--wide"], "list: --wide: no such option; see sim0mq list --help"),
    (&["list", "--raw"], "list: --raw: not an option of this command; see sim0mq list --help"),
    (&["list", "--json", "--json"], "list: --json: given twice; see sim0mq list --help"),
    (&["list", "--json=1"], "list: --json: takes no word; see sim0mq list --help"),
    (&["blank", "-o"], "blank: -o: a word is missing after it; see sim0mq blank --help"),
    (&["value", "message.bin"], "value: an operand is missing; see sim0mq value --help"),
    (&["value", "message.bin", "x"], "x: not a number from 0 on"),
    (&["value", "message.bin", "--", "-1"], "-1: not a number from 0 on"),
    (&["value", "message.bin", "+1"], "+1: not a number from 0 on"),
    (&["value", "message.bin", ""], ": not a number from 0 on"),
    (
        &["value", "message.bin", "99999999999999999999"],
        "99999999999999999999: not a number from 0 on",
    ),
    (&["record", "-o", "x.rec"], "record: an operand is missing; see sim0mq record --help"),
    (&["record", "message.bin"], "record: -o is missing; see sim0mq record --help"),
    (&["salvage", "cut.rec"], "salvage: -o is missing; see sim0mq salvage --help"),
    (&["show", "season.rec", "0", "-o", "x"], "show: -o goes with --raw; see sim0mq show --help"),
    (&["decks", "season.rec", "--deck", "16"], "decks: the last deck is 15"),
    (&["decks", "season.rec", "--svg", "-"], "decks: --svg is a file; see sim0mq decks --help"),
    (&["decks", "season.rec", "--deck", "seven"], "seven: not a number from 0 on"),
    (
        &["decks", "season.rec", "--at", "1", "--at=2"],
        "decks: --at: given twice; see sim0mq decks --help",
    ),
];

#[test]
fn wrong_use_is_told() {
    for (words, told) in WRONG {
        let ran = ran(words);
        assert_eq!((ran.status, ran.out.as_str()), (2, ""), "{words:?}");
        assert_eq!(ran.err, format!("sim0mq: {told}\n"));
    }
}

#[test]
fn no_command_is_told_with_the_list_of_them() {
    let ran = ran(&[]);
    assert_eq!((ran.status, ran.out.as_str()), (2, ""));
    assert!(ran.err.starts_with("sim0mq: no command\n") && ran.err.contains("sim0mq decks REC"));
}

#[test]
fn a_file_that_is_not_there_is_told() {
    let folder = folder("not-there");
    let (none, out) = (folder.join("none"), folder.join("out"));
    let none = word(&none);
    let rows: [&[&str]; 9] = [
        &["list", none],
        &["blank", none],
        &["value", none, "0"],
        &["record", "-o", word(&out), "message.bin", none],
        &["messages", none],
        &["show", none, "0"],
        &["salvage", none, "-o", word(&out)],
        &["check", none],
        &["decks", none],
    ];
    for words in rows {
        let ran = ran(words);
        assert_eq!((ran.status, ran.out.as_str()), (2, ""), "{words:?}");
        assert_eq!(ran.err, format!("sim0mq: {none}: No such file or directory (os error 2)\n"));
    }
    assert!(!out.exists());
}

#[test]
fn a_folder_is_no_file() {
    let folder = folder("folder");
    let out = folder.join("out");
    let rows: [&[&str]; 9] = [
        &["list", "."],
        &["blank", "."],
        &["value", ".", "0"],
        &["record", "-o", word(&out), "."],
        &["messages", "."],
        &["show", ".", "0"],
        &["salvage", ".", "-o", word(&out)],
        &["check", "."],
        &["decks", "."],
    ];
    for words in rows {
        let ran = ran(words);
        assert_eq!((ran.status, ran.out.as_str()), (2, ""), "{words:?}");
        assert_eq!(ran.err, "sim0mq: .: Is a directory (os error 21)\n");
    }
    assert!(!out.exists());
    for force in [&[][..], &["--force"]] {
        let words = [&["blank", "message.bin", "-o", word(&folder)], force].concat();
        let ran = ran(&words);
        let told = format!("sim0mq: {}: is there, and no regular file\n", folder.display());
        assert_eq!((ran.status, ran.out.as_str(), ran.err), (2, "", told));
    }
}

#[test]
fn a_file_that_is_there_is_kept() {
    let folder = folder("there");
    let out = folder.join("out");
    let rows: [&[&str]; 5] = [
        &["blank", "message.bin", "-o", word(&out)],
        &["record", "message.bin", "-o", word(&out)],
        &["show", "season.rec", "0", "--raw", "--output", word(&out)],
        &["salvage", "cut.rec", "-o", word(&out)],
        &["decks", "season.rec", "--svg", word(&out)],
    ];
    for words in rows {
        fs::write(&out, "kept").expect("a file");
        let kept = ran(words);
        let told = format!("sim0mq: {}: is there; --force replaces it\n", out.display());
        assert_eq!((kept.status, kept.out.as_str(), kept.err), (2, "", told));
        assert_eq!(fs::read(&out).expect("a file"), b"kept");
        let replaced = ran(&[words, &["--force"]].concat());
        assert_eq!(replaced.status, 0);
        assert!(fs::read(&out).expect("a file") != b"kept");
    }
}

#[test]
fn a_refused_message_writes_no_file() {
    let folder = folder("refused");
    let out = folder.join("out");
    for words in [["blank", "/dev/null", "-o"], ["record", "cut.rec", "-o"]] {
        assert_eq!(ran(&[&words[..], &[word(&out)]].concat()).status, 1);
    }
    assert_eq!(common::names(&folder), [""; 0]);
}

#[test]
fn names_may_begin_with_a_dash_or_be_any_bytes() {
    use std::ffi::OsStr;
    use std::os::unix::ffi::OsStrExt;
    let folder = folder("names");
    for name in [OsStr::new("-x"), OsStr::from_bytes(b"\xff.bin")] {
        fs::write(folder.join(name), sample("message.bin")).expect("a file");
        let output = command(&["list", "--"]).arg(name).current_dir(&folder).output();
        assert_eq!(output.expect("a run").status.code(), Some(0));
    }
    let mut decks = command(&["decks", "season.rec"]);
    let joined = [b"--svg=", folder.as_os_str().as_bytes(), b"/\xff.svg"].concat();
    assert_eq!(
        decks.arg(OsStr::from_bytes(&joined)).output().expect("a run").status.code(),
        Some(0)
    );
    assert!(folder.join(OsStr::from_bytes(b"\xff.svg")).exists());
}

#[test]
fn the_version_is_told() {
    let version = format!("sim0mq {}\n", env!("CARGO_PKG_VERSION"));
    assert_eq!(ran(&["--version"]), common::fine(&version));
}
