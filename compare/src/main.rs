//! `compare [parts] ONE TWO SEED CASES [FIRST]`: compares two subjects on generated cases.
//!
//! The cases are about one message, or with `parts` about what is built on messages. The subjects
//! are `peer`, the reader in Rust, `c`, the one in C, which has no parts, `plain`, a model of the
//! rules, and, where it is linked in, `product`, the library. Stops at the first difference.
//! `FIRST` is the number of the first case, so that one case of a run can be run again alone.

use compare::c_peer::CPeer;
use compare::driver::{Difference, Driver, PartsDriver};
use compare::plain::Plain;
#[cfg(feature = "product")]
use compare::product::Product;
use compare::subject::{Parts, Peer, Subject};
use compare::tally::Tally;
use std::env;
use std::process::ExitCode;
use std::time::{Duration, Instant};

/// How many cases run between two looks at the clock.
const BATCH: u64 = 256;

fn main() -> ExitCode {
    let mut words: Vec<String> = env::args().skip(1).collect();
    let of_parts = words.first().is_some_and(|word| word == "parts");
    words.drain(..usize::from(of_parts));
    let ended = if of_parts { compare_parts(&words) } else { compare_messages(&words) };
    ended.unwrap_or_else(|| {
        eprintln!(
            "usage: compare [parts] ONE TWO SEED CASES [FIRST], ONE and TWO of peer, c, plain, product"
        );
        ExitCode::from(2)
    })
}

/// Compares on messages, if the words say what.
fn compare_messages(words: &[String]) -> Option<ExitCode> {
    let (one, two, [seed, cases, first]) = asked(words)?;
    let (one, two) = (subject(one)?, subject(two)?);
    println!("{} and {}, seed {seed}", one.name(), two.name());
    let mut driver = Driver::new(one, two);
    let ran = run(cases, |done| driver.case(seed, first.wrapping_add(done)));
    Some(report(cases, ran, driver.tally()))
}

/// Compares on what is built on messages, if the words say what.
fn compare_parts(words: &[String]) -> Option<ExitCode> {
    let (one, two, [seed, cases, first]) = asked(words)?;
    let (one, two) = (parts(one)?, parts(two)?);
    println!("{} and {}, seed {seed}", one.name(), two.name());
    let mut driver = PartsDriver::new(one, two);
    let ran = run(cases, |done| driver.case(seed, first.wrapping_add(done)));
    Some(report(cases, ran, driver.tally()))
}

/// The names of the two subjects and the three numbers in the words, if they are what they should be.
fn asked(words: &[String]) -> Option<(&str, &str, [u64; 3])> {
    let [one, two, numbers @ ..] = words else {
        return None;
    };
    let numbers: Option<Vec<u64>> = numbers.iter().map(|word| word.parse().ok()).collect();
    let numbers = match numbers?[..] {
        [seed, cases] => [seed, cases, 0],
        [seed, cases, first] => [seed, cases, first],
        _ => return None,
    };
    Some((one, two, numbers))
}

/// The subject of this name, if it is there.
fn subject(name: &str) -> Option<&'static dyn Subject> {
    match name {
        "peer" => Some(&Peer),
        "c" => Some(&CPeer),
        "plain" => Some(&Plain),
        #[cfg(feature = "product")]
        "product" => Some(&Product),
        _ => None,
    }
}

/// The subject of this name that has the parts, if it is there.
fn parts(name: &str) -> Option<&'static dyn Parts> {
    match name {
        "peer" => Some(&Peer),
        "plain" => Some(&Plain),
        #[cfg(feature = "product")]
        "product" => Some(&Product),
        _ => None,
    }
}

/// Runs the cases up to the first difference, which comes with its number.
fn run(
    cases: u64,
    mut case: impl FnMut(u64) -> Result<(), Difference>,
) -> Result<(), (u64, Difference)> {
    let start = Instant::now();
    let mut shown = start;
    for done in 0..cases {
        case(done).map_err(|difference| (done, difference))?;
        if done % BATCH == 0 && shown.elapsed() >= Duration::from_secs(1) {
            shown = Instant::now();
            eprintln!("{done} cases, {} a minute", per_minute(done, start));
        }
    }
    eprintln!("{cases} cases, {} a minute", per_minute(cases, start));
    Ok(())
}

/// Prints what was reached, or the difference.
fn report(cases: u64, ran: Result<(), (u64, Difference)>, tally: &Tally) -> ExitCode {
    if let Err((done, difference)) = ran {
        println!("{difference}");
        println!("{done} cases, 1 difference");
        return ExitCode::FAILURE;
    }
    print!("{tally}");
    let (number, times) = tally.least();
    println!("least reached: refusal {number}, {times} times");
    println!("{cases} cases, 0 differences");
    ExitCode::SUCCESS
}

/// The speed since `start` in cases a minute.
fn per_minute(cases: u64, start: Instant) -> u64 {
    (cases as f64 / start.elapsed().as_secs_f64() * 60.0) as u64
}
