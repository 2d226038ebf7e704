//! A line on standard error tells how far it is, where a terminal waits for more than a second.

mod common;

use std::fs::File;
use std::io::{Read, Write};
use std::process::Stdio;
use std::thread;
use std::time::Duration;

use common::{command, sample};

/// A terminal: its two ends.
#[allow(unsafe_code)]
fn terminal() -> (File, File) {
    use std::os::fd::FromRawFd;
    extern "C" {
        fn posix_openpt(flags: i32) -> i32;
        fn grantpt(end: i32) -> i32;
        fn unlockpt(end: i32) -> i32;
        fn ptsname_r(end: i32, name: *mut u8, room: usize) -> i32;
    }
    const READ_AND_WRITE: i32 = 2;
    let mut name = [0; 64];
    // SAFETY: the calls are those of the system's C library, as it documents them; the name has as
    // much room as is said, and the end that is opened belongs to the file alone.
    let ours = unsafe {
        let end = posix_openpt(READ_AND_WRITE);
        assert!(end >= 0 && grantpt(end) == 0 && unlockpt(end) == 0);
        assert_eq!(ptsname_r(end, name.as_mut_ptr(), name.len()), 0);
        File::from_raw_fd(end)
    };
    let length = name.iter().position(|&byte| byte == 0).expect("the name's end");
    let name = std::str::from_utf8(&name[..length]).expect("a name");
    let theirs = File::options().read(true).write(true).open(name).expect("the other end");
    (ours, theirs)
}

/// What a listing tells on standard error whose message comes after this time.
fn told_after(wait: Duration, stderr: Stdio) -> Option<Vec<u8>> {
    let mut command = command(&["list"]);
    let child = command.stdin(Stdio::piped()).stdout(Stdio::piped()).stderr(stderr).spawn();
    let mut child = child.expect("it runs");
    drop(command);
    thread::sleep(wait);
    let mut input = child.stdin.take().expect("its input");
    input.write_all(&sample("message.bin")).expect("it reads");
    drop(input);
    let output = child.wait_with_output().expect("it ends");
    assert_eq!(output.stdout, b"SIM01 fields 1 steps 9 length 77\n0 5 68 69 8 0 1\n");
    (!output.stderr.is_empty()).then_some(output.stderr)
}

/// What such a listing tells on a terminal.
fn told_on_a_terminal(wait: Duration) -> String {
    let (mut ours, theirs) = terminal();
    assert_eq!(told_after(wait, Stdio::from(theirs)), None);
    let (mut told, mut piece) = (Vec::new(), [0; 256]);
    // the end of a terminal that nobody has open is told by an error
    while let Ok(n @ 1..) = ours.read(&mut piece) {
        told.extend_from_slice(&piece[..n]);
    }
    String::from_utf8(told).expect("text")
}

#[test]
fn a_terminal_that_waits_is_told() {
    let told = told_on_a_terminal(Duration::from_millis(1500));
    assert!(told.starts_with("\rsim0mq: reading ..\x1b[K"), "{told:?}");
    assert!(told.ends_with("\r\x1b[K"), "{told:?}");
}

#[test]
fn a_terminal_that_does_not_wait_is_told_nothing() {
    assert_eq!(told_on_a_terminal(Duration::ZERO), "");
}

#[test]
fn where_there_is_no_terminal_nothing_is_told() {
    assert_eq!(told_after(Duration::from_millis(1500), Stdio::piped()), None);
}
