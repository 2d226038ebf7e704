//! `bench [PAGE PICTURE]`: times the library, the reader in Rust, the one in C and `memcpy` side by side, and
//! what is built on messages in the library and in Rust.
//!
//! Prints a table of each. PAGE gets both, each between its two marks, and PICTURE a drawing of how cost grows.

mod growth;
mod measure;
mod parts;
mod picture;
mod placed;
mod table;
mod work;

use std::env;
use std::fs;
use std::process::ExitCode;

fn main() -> ExitCode {
    let words: Vec<String> = env::args().skip(1).collect();
    let done = match &words[..] {
        [] => {
            table::table();
            parts::table();
            Ok(())
        }
        [page, picture] => all(page, picture),
        _ => Err("usage: bench [PAGE PICTURE]".to_owned()),
    };
    match done {
        Ok(()) => ExitCode::SUCCESS,
        Err(text) => {
            eprintln!("{text}");
            ExitCode::from(2)
        }
    }
}

/// Times everything and writes both files.
fn all(page: &str, picture: &str) -> Result<(), String> {
    let table = table::table();
    let parts = parts::table();
    let drawn = picture::draw(&growth::growth());
    table::write(page, "the table", &table)?;
    table::write(page, "the table of the parts", &parts)?;
    fs::write(picture, drawn).map_err(|error| format!("{picture}: {error}"))?;
    println!("{page} and {picture} are written");
    Ok(())
}
