//! A recording at the limit, 4,096 messages of 65,536 bytes: the memory and the time of each
//! command on it, and a kill while it is written.
//!
//! It is one test, since the memory of a child is told as at least that of this process.

mod common;

use std::fs;
use std::io::Write;
use std::path::{Path, PathBuf};
use std::process::{Child, Command, Stdio};
use std::thread;
use std::time::{Duration, Instant};

use common::{command, folder, names, text, word};
use sim0mq::MOST_BYTES;

/// The messages of a recording, at most.
const MOST_MESSAGES: usize = 4096;
/// What the command may take beside the files that it holds, in bytes.
const BESIDE: u64 = 8 << 20;

/// The most memory that any child of this process took so far, in bytes.
#[allow(unsafe_code)]
fn memory() -> u64 {
    extern "C" {
        fn getrusage(who: i32, usage: *mut [i64; 18]) -> i32;
    }
    const CHILDREN: i32 = -1;
    let mut usage = [0; 18];
    // SAFETY: the usage is two times of two numbers each and 14 numbers, which is what is lent.
    assert_eq!(unsafe { getrusage(CHILDREN, &mut usage) }, 0);
    // the fifth number, in KiB
    1024 * u64::try_from(usage[4]).expect("memory")
}

/// Waits for a run of the command, which has to be fine and to take no more memory than `most`.
fn measured(name: &str, child: Child, begun: Instant, most: u64) {
    let output = child.wait_with_output().expect("it ends");
    let told = String::from_utf8_lossy(&output.stderr).into_owned();
    assert_eq!(output.status.code(), Some(0), "{name}: {told}");
    let (time, memory) = (begun.elapsed(), memory());
    println!("{name}: {:.2} s, at most {} MB so far", time.as_secs_f64(), memory / 1_000_000);
    assert!(memory <= most, "{name}: {memory} bytes of memory, of {most}");
}

/// Runs the command, whose memory may be `most`; the order of runs is by what they may take.
fn run(words: &[&str], most: u64) {
    let begun = Instant::now();
    let mut command = command(words);
    let child = command.stdout(Stdio::null()).stderr(Stdio::piped()).spawn().expect("it runs");
    measured(words[0], child, begun, most);
}

/// A message as long as any, with this number: one array of bytes.
fn longest(number: i64) -> Vec<u8> {
    let array = |n: usize| [&[11], &(n as u32).to_be_bytes()[..], &vec![7; n]].concat();
    let short = common::message(&text(b"MUS.2"), number, 1, &[&array(0)]).len();
    common::message(&text(b"MUS.2"), number, 1, &[&array(MOST_BYTES - short)])
}

/// The recording of as many of the longest messages as there may be, made by the command of
/// messages on its standard input.
fn recorded(folder: &Path) -> PathBuf {
    let path = folder.join("most.rec");
    let begun = Instant::now();
    let mut command = command(&["record", "-o", word(&path), "-"]);
    let child = command.stdin(Stdio::piped()).stderr(Stdio::piped()).spawn();
    let mut child = child.expect("it runs");
    let mut input = child.stdin.take().expect("its input");
    for number in 0..MOST_MESSAGES {
        let message = longest(i64::try_from(number).expect("a number"));
        assert_eq!(message.len(), MOST_BYTES);
        input.write_all(&message).expect("it reads");
    }
    drop(input);
    let size = (MOST_MESSAGES * (MOST_BYTES + 8) + 10) as u64;
    measured("record", child, begun, size + BESIDE);
    assert_eq!(fs::metadata(&path).expect("a file").len(), size);
    path
}

/// Kills a run of the command while its file is being written; says whether it was caught there.
fn killed(most: &Path, out: &Path) -> bool {
    let folder = out.parent().expect("a folder");
    let before = names(folder).len();
    let mut child = command(&["blank", word(most), "-o", word(out)]).spawn().expect("it runs");
    while names(folder).len() == before {
        if child.try_wait().expect("it runs").is_some() {
            return false;
        }
        thread::sleep(Duration::from_millis(1));
    }
    thread::sleep(Duration::from_millis(5));
    child.kill().expect("it can be killed");
    child.wait().expect("it ends");
    let size = |path: &Path| fs::metadata(path).map(|about| about.len()).ok();
    assert!(size(out).is_none_or(|length| Some(length) == size(most)), "half a file");
    !out.exists()
}

/// A kill leaves no file of the name that was to be written, and what it leaves has a name that
/// begins with a dot and ends in `.part`. The next run is not held up by it.
fn a_kill_leaves_no_half_file(folder: &Path, most: &Path) {
    let kills = folder.join("kills");
    fs::create_dir(&kills).expect("a folder");
    let out = kills.join("out.rec");
    let caught = (0..20).any(|_| {
        let caught = killed(most, &out);
        let _ = fs::remove_file(&out);
        caught
    });
    assert!(caught, "never caught while it wrote");
    let left = names(&kills);
    assert!(!left.is_empty());
    assert!(left.iter().all(|name| name.starts_with(".sim0mq-") && name.ends_with(".part")));
    run(&["blank", word(most), "-o", word(&out)], u64::MAX);
    assert_eq!(fs::metadata(&out).expect("a file").len(), fs::metadata(most).expect("one").len());
}

/// A file longer than any recording is refused, and salvage does not take it.
fn a_longer_file_is_refused(folder: &Path, size: u64) {
    let longer = folder.join("longer.rec");
    fs::File::create(&longer).and_then(|file| file.set_len(size + 1)).expect("a file");
    let tail = "trailer or index of a recording wrong";
    let wanted = common::refused("refused 18 at 0", word(&longer), tail);
    assert_eq!(common::ran(&["messages", word(&longer)]), wanted);
    let saved = common::ran(&["salvage", word(&longer), "-o", "-"]);
    let told = format!("sim0mq: {}: longer than any recording\n", longer.display());
    assert_eq!((saved.status, saved.out.as_str(), saved.err), (2, "", told));
}

#[test]
fn recordings_at_the_limit() {
    let folder = folder("limit");
    let path = recorded(&folder);
    let (most, size) = (word(&path), fs::metadata(&path).expect("a file").len());
    let once = size + BESIDE;
    run(&["messages", most], once);
    run(&["messages", most, "--json"], once);
    run(&["show", most, "4095"], once);
    run(&["show", most, "4095", "--raw"], once);
    run(&["decks", most], once);
    let picture = folder.join("most.svg");
    run(&["decks", most, "--history", "--svg", word(&picture)], once);
    let blanked = folder.join("blanked.rec");
    run(&["blank", most, "-o", word(&blanked)], once);
    let mut check = Command::new("bash");
    let script = "\"$0\" check \"$1\" | grep -c 'refused 20 at 40'; test ${PIPESTATUS[0]} = 1";
    let checked = check.args(["-c", script, common::BUILT, most]).output().expect("a shell");
    assert_eq!((checked.status.code(), &checked.stdout[..]), (Some(0), &b"4096\n"[..]));
    assert!(memory() <= once);
    a_longer_file_is_refused(&folder, size);
    a_kill_leaves_no_half_file(&folder, &path);
    assert!(memory() <= once);
    // salvage has the file and the recording that the library makes of it
    let saved = folder.join("saved.rec");
    run(&["salvage", most, "-o", word(&saved)], 2 * size + BESIDE);
    let same = Command::new("cmp").args([most, word(&saved)]).status().expect("a comparison");
    assert_eq!(same.code(), Some(0));
    fs::remove_dir_all(&folder).expect("the folder");
}
