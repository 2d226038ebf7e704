//! The help, its examples, the manual page and the completion say the same, and work.

mod common;

use std::collections::BTreeSet;
use std::env;
use std::fs;
use std::path::Path;
use std::process::Command;

use common::{fine, ran, samples};

const COMMANDS: [&str; 9] =
    ["list", "blank", "value", "record", "messages", "show", "salvage", "check", "decks"];

/// The help of a command.
fn help(command: &str) -> String {
    let help = ran(&[command, "--help"]);
    assert_eq!((help.status, help.err.as_str()), (0, ""));
    help.out
}

/// The words of a text that are options, `-h` and `--help` left out.
fn options(text: &str) -> BTreeSet<String> {
    let words = text.split(|c: char| !c.is_ascii_alphanumeric() && c != '-');
    let options = words.filter(|word| *word == "-o" || word.starts_with("--"));
    options
        .filter(|word| !["--help", "--version", "--output"].contains(word))
        .map(String::from)
        .collect()
}

/// What a shell prints in this folder, where the command is at hand.
fn shell(folder: &Path, script: &str) -> String {
    let built = Path::new(common::BUILT).parent().expect("a folder");
    let path = format!("{}:{}", built.display(), env::var("PATH").expect("a path"));
    let mut shell = Command::new("bash");
    let output = shell.args(["-c", script]).current_dir(folder).env("PATH", path).output();
    String::from_utf8(output.expect("a shell").stdout).expect("text")
}

#[test]
fn each_command_has_help_with_an_example_that_works() {
    for command in COMMANDS {
        let help = help(command);
        assert_eq!(ran(&["help", command]), fine(&help));
        assert_eq!(ran(&[command, "-h"]), fine(&help));
        assert!(help.starts_with(&format!("sim0mq {command} ")));
        let (_, example) = help.split_once("\n    $ ").expect("an example");
        let (script, wanted) = example.split_once('\n').expect("its output");
        let wanted: String = wanted.lines().map(|line| format!("{}\n", &line[4..])).collect();
        assert_eq!(shell(&samples(), script), wanted, "{script}");
    }
}

#[test]
fn the_readme_has_what_the_command_prints() {
    let root = common::repository(".");
    let readme = fs::read_to_string(root.join("README.md")).expect("the README");
    let first = "    $ sim0mq decks cli/samples/season.rec --deck 7\n    10\n";
    assert!(readme.find(first).is_some_and(|place| place < 200));
    let mut lines = readme.lines().peekable();
    let mut run = 0;
    while let Some(line) = lines.next() {
        let Some(script) = line.strip_prefix("    $ sim0mq ") else {
            continue;
        };
        let mut wanted = String::new();
        let printed = |line: &&str| line.starts_with("    ") && !line.starts_with("    $");
        while let Some(line) = lines.next_if(printed) {
            wanted += &format!("{}\n", &line[4..]);
        }
        assert_eq!(shell(&root, &format!("sim0mq {script} 2>/dev/null")), wanted, "{script}");
        run += 1;
    }
    assert!(run >= 5);
}

#[test]
fn the_help_names_every_command() {
    let all = ran(&["--help"]);
    assert_eq!(ran(&["help"]), all);
    assert_eq!((all.status, all.err.as_str()), (0, ""));
    for command in COMMANDS {
        let usage = help(command);
        let short = usage.lines().next().expect("a line").split(" [--").next().expect("a part");
        assert!(all.out.contains(short), "{short}");
        assert!(usage.lines().all(|line| line.len() <= 100), "{command}");
    }
}

#[test]
fn the_manual_page_has_every_command_and_option() {
    let page =
        fs::read_to_string(Path::new(env!("CARGO_MANIFEST_DIR")).join("sim0mq.1")).expect("a page");
    let plain = ["\\fB", "\\fI", "\\fR"]
        .iter()
        .fold(page.replace("\\-", "-"), |page, font| page.replace(font, ""));
    let synopsis =
        plain.split(".SH ").find(|part| part.starts_with("SYNOPSIS")).expect("a synopsis");
    let synopsis = synopsis.split_whitespace().collect::<Vec<_>>().join(" ");
    for command in COMMANDS {
        assert!(plain.contains(&format!("\n.TP\n.B {command}\n")), "{command}");
        let help = help(command);
        let usage = help.split("\n\n").next().expect("a usage");
        let usage = usage.split_whitespace().collect::<Vec<_>>().join(" ");
        assert!(synopsis.contains(&usage), "{usage}");
        for option in options(&help) {
            assert!(
                plain.contains(&format!("\n.TP\n.B {option}\n"))
                    || plain.contains(&format!("\n.TP\n{option}")),
                "{option}"
            );
        }
    }
    assert!(plain.contains(&format!("sim0mq {}", env!("CARGO_PKG_VERSION"))));
}

/// What is offered after these words of a call, the last of which is not finished.
fn offered(words: &str) -> Vec<String> {
    let script = format!(
        "source ../completion.bash; COMP_WORDS=({words}); COMP_CWORD=$((${{#COMP_WORDS[@]}} - 1)); \
         _sim0mq sim0mq \"${{COMP_WORDS[COMP_CWORD]}}\" \"${{COMP_WORDS[COMP_CWORD - 1]}}\"; \
         printf '%s\\n' \"${{COMPREPLY[@]}}\""
    );
    let mut words: Vec<String> = shell(&samples(), &script).lines().map(String::from).collect();
    words.sort();
    words
}

#[test]
fn the_completion_offers_what_there_is() {
    let mut commands: Vec<&str> = COMMANDS.to_vec();
    commands.extend(["help", "--help", "--version"]);
    commands.sort_unstable();
    assert_eq!(offered("sim0mq ''"), commands);
    assert_eq!(offered("sim0mq de"), ["decks"]);
    for command in COMMANDS {
        let offered: BTreeSet<String> =
            offered(&format!("sim0mq {command} -")).into_iter().collect();
        let known = |word: &&String| !["--help", "--output"].contains(&word.as_str());
        assert_eq!(
            offered.iter().filter(known).cloned().collect::<BTreeSet<_>>(),
            options(&help(command)),
            "{command}"
        );
    }
    assert_eq!(offered("sim0mq decks sea"), ["season.rec", "season.svg"]);
    assert_eq!(
        offered("sim0mq decks season.rec --deck 1"),
        ["1", "10", "11", "12", "13", "14", "15"]
    );
    assert_eq!(offered("sim0mq record -o sea"), ["season.rec", "season.svg"]);
    assert_eq!(offered("sim0mq help sh"), ["show"]);
}
