//! A failing system is told by status 2 and leaves no half file.

mod common;

use std::fs::{self, File};
use std::io::{Read, Write};
use std::process::{Command, Stdio};

use common::{command, folder, names, word, BUILT};

#[test]
fn a_closed_pipe_ends_it_quietly() {
    for words in [&["messages", "season.rec"][..], &["blank", "season.rec"], &["decks", "--help"]] {
        let (reader, writer) = std::io::pipe().expect("a pipe");
        drop(reader);
        let output = command(words).stdout(writer).stderr(Stdio::piped()).spawn();
        let output = output.expect("it runs").wait_with_output().expect("it ends");
        assert_eq!((output.status.code(), output.stderr.as_slice()), (Some(2), &b""[..]));
    }
}

#[test]
fn a_pipe_that_is_closed_while_it_writes_ends_it_quietly() {
    let folder = folder("closed-pipe");
    let many = folder.join("many.rec");
    let message = common::muster(1, 1, &[0]);
    assert_eq!(common::fed(&["record", "-o", word(&many), "-"], &message.repeat(4096)).status, 0);
    let mut messages = command(&["messages", word(&many)]);
    let child = messages.stdout(Stdio::piped()).stderr(Stdio::piped()).spawn();
    let mut child = child.expect("it runs");
    let mut first = [0; 1];
    let mut out = child.stdout.take().expect("its output");
    out.read_exact(&mut first).expect("a byte");
    drop(out);
    let output = child.wait_with_output().expect("it ends");
    assert_eq!((output.status.code(), output.stderr.as_slice()), (Some(2), &b""[..]));
}

#[test]
fn a_full_device_is_told() {
    let rows: [&[&str]; 7] = [
        &["list", "message.bin"],
        &["blank", "message.bin"],
        &["value", "message.bin", "0"],
        &["messages", "season.rec"],
        &["record", "message.bin", "-o", "-"],
        &["decks", "season.rec"],
        &["list", "/dev/null"],
    ];
    for words in rows {
        let full = File::options().write(true).open("/dev/full").expect("the full device");
        let output = command(words).stdout(full).stderr(Stdio::piped()).output().expect("it runs");
        assert_eq!(output.status.code(), Some(2), "{words:?}");
        let told = String::from_utf8(output.stderr).expect("text");
        let wanted = "sim0mq: standard output: No space left on device (os error 28)\n";
        assert!(told.ends_with(wanted), "{told}");
    }
}

/// Runs the command in a shell that may write files of 1,024 bytes and no longer, as on a disk that
/// is full there, and answers the status and what was told.
fn on_a_full_disk(words: &[&str]) -> (Option<i32>, String) {
    // the unit of the limit is 1,024 bytes in bash, 512 in other shells
    let script = "ulimit -f 1 && trap '' XFSZ && exec \"$@\"";
    let output = Command::new("bash")
        .args(["-c", script, "-", BUILT])
        .args(words)
        .current_dir(common::samples())
        .output()
        .expect("a shell");
    (output.status.code(), String::from_utf8(output.stderr).expect("text"))
}

#[test]
fn a_full_disk_leaves_nothing() {
    let folder = folder("full-disk");
    let (out, many) = (folder.join("out"), common::folder("many").join("many.bin"));
    fs::write(&many, common::muster(1, 1, &[0]).repeat(100)).expect("a file");
    let rows: [&[&str]; 4] = [
        &["blank", "season.rec", "-o", word(&out)],
        &["record", word(&many), "-o", word(&out)],
        &["salvage", "season.rec", "-o", word(&out)],
        &["decks", "season.rec", "--svg", word(&out)],
    ];
    for words in rows {
        let told = format!("sim0mq: {}: File too large (os error 27)\n", out.display());
        assert_eq!(on_a_full_disk(words), (Some(2), told), "{words:?}");
        assert_eq!(names(&folder), [""; 0]);
    }
    // a file that was there stays
    fs::write(&out, "kept").expect("a file");
    for words in rows {
        assert_eq!(on_a_full_disk(&[words, &["--force"]].concat()).0, Some(2));
        assert_eq!(names(&folder), ["out"]);
        assert_eq!(fs::read(&out).expect("a file"), b"kept");
    }
}

#[test]
fn a_folder_that_is_not_there_is_told_by_the_files_name() {
    let folder = folder("no-folder");
    let out = folder.join("none").join("out");
    let ran = common::ran(&["blank", "message.bin", "-o", word(&out)]);
    let told = format!("sim0mq: {}: No such file or directory (os error 2)\n", out.display());
    assert_eq!((ran.status, ran.err), (2, told));
}

#[test]
fn a_file_that_comes_meanwhile_is_kept() {
    let folder = folder("meanwhile");
    let out = folder.join("out");
    let mut record = command(&["record", "-o", word(&out), "-"]);
    let child = record.stdin(Stdio::piped()).stderr(Stdio::piped()).spawn();
    let mut child = child.expect("it runs");
    let mut input = child.stdin.take().expect("its input");
    // it has looked for the file when it reads more than a pipe holds
    input.write_all(&common::muster(1, 1, &[0]).repeat(4096)).expect("it reads");
    fs::write(&out, "kept").expect("a file");
    drop(input);
    let output = child.wait_with_output().expect("it ends");
    let told = format!("sim0mq: {}: is there; --force replaces it\n", out.display());
    assert_eq!((output.status.code(), output.stderr), (Some(2), told.into_bytes()));
    assert_eq!(
        (names(&folder), fs::read(&out).expect("a file")),
        (vec!["out".into()], b"kept".to_vec())
    );
}

#[test]
fn a_replaced_file_keeps_who_may_read_it() {
    use std::os::unix::fs::PermissionsExt;
    let folder = folder("permissions");
    let out = folder.join("out");
    fs::write(&out, "old").expect("a file");
    fs::set_permissions(&out, fs::Permissions::from_mode(0o600)).expect("permissions");
    assert_eq!(common::ran(&["blank", "message.bin", "-o", word(&out), "--force"]).status, 0);
    let mode = fs::metadata(&out).expect("a file").permissions().mode();
    assert_eq!((mode & 0o777, fs::read(&out).expect("a file").len()), (0o600, 77));
}

#[test]
fn a_file_without_an_end_is_read_no_further_than_a_message_goes() {
    let wanted = common::refused("refused 8 at 0", "/dev/zero", "message above 65,536 bytes");
    assert_eq!(common::ran(&["list", "/dev/zero"]), wanted);
    assert_eq!(common::ran(&["value", "/dev/zero", "0"]), wanted);
}
