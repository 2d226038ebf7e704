//! A line on standard error where a terminal waits for more than a second: what is being done, and
//! how far it is. Anywhere else nothing is printed.

use std::io::{self, IsTerminal, Write};
use std::sync::atomic::{AtomicUsize, Ordering};
use std::sync::Mutex;
use std::thread;
use std::time::Duration;

/// For how long nothing is shown.
const QUIET: Duration = Duration::from_secs(1);
/// For how long a line stands before it is written anew.
const PAUSE: Duration = Duration::from_millis(200);

/// What the line says of the work.
struct Line {
    doing: &'static str,
    of: &'static str,
    all: usize,
    shown: bool,
    stopped: bool,
}

static LINE: Mutex<Line> =
    Mutex::new(Line { doing: "working", of: "", all: 0, shown: false, stopped: false });
static DONE: AtomicUsize = AtomicUsize::new(0);

/// Begins to watch the time, if standard error is a terminal.
pub fn start() {
    if io::stderr().is_terminal() {
        // Without a thread for it there is no line, and all else is as it is.
        let _ = thread::Builder::new().spawn(watch);
    }
}

/// Says what is being done from now on, in so many pieces; 0 where their number is not known.
pub fn stage(doing: &'static str, of: &'static str, all: usize) {
    DONE.store(0, Ordering::Relaxed);
    if let Ok(mut line) = LINE.lock() {
        (line.doing, line.of, line.all) = (doing, of, all);
    }
}

/// Says how many pieces are done.
pub fn done(pieces: usize) {
    DONE.store(pieces, Ordering::Relaxed);
}

/// Takes the line away, and shows none from now on.
pub fn stop() {
    if let Ok(mut line) = LINE.lock() {
        line.stopped = true;
        if line.shown {
            let _ = write!(io::stderr(), "\r\x1b[K");
        }
    }
}

/// Says that standard output is written from now on: where it is a terminal, no line stands in
/// between.
pub fn printing() {
    if io::stdout().is_terminal() {
        stop();
    }
}

/// Writes the line anew, from the first second on, until it is stopped.
fn watch() {
    thread::sleep(QUIET);
    loop {
        match LINE.lock() {
            Ok(mut line) if !line.stopped => show(&mut line),
            _ => return,
        }
        thread::sleep(PAUSE);
    }
}

/// Writes the line.
fn show(line: &mut Line) {
    line.shown = true;
    let Line { doing, of, all, .. } = *line;
    let text = match (DONE.load(Ordering::Relaxed), all) {
        (0, 0) => format!("{doing} .."),
        (done, 0) => format!("{doing}: {done} {of}"),
        (done, all) => format!("{doing}: {done} of {all} {of}"),
    };
    let _ = write!(io::stderr(), "\rsim0mq: {text}\x1b[K");
}
