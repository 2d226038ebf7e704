//! Compiles the reader in C by `gcc -O3`, without a warning, and links it.

use std::env;
use std::path::{Path, PathBuf};
use std::process::Command;

const SOURCES: [&str; 2] = ["reader", "writer"];
const FLAGS: [&str; 6] = ["-std=c11", "-O3", "-Wall", "-Wextra", "-Werror", "-fPIC"];

fn main() {
    println!("cargo::rerun-if-changed=build.rs");
    println!("cargo::rerun-if-changed=c");
    let folder = PathBuf::from(env::var_os("OUT_DIR").expect("cargo names the folder"));
    let objects = SOURCES.map(|name| compile(name, &folder));
    let library = folder.join("libreader.a");
    run(Command::new("ar").arg("crs").arg(&library).args(&objects));
    println!("cargo::rustc-link-search=native={}", folder.display());
    println!("cargo::rustc-link-lib=static=reader");
}

/// Compiles a source file and answers its object.
fn compile(name: &str, folder: &Path) -> PathBuf {
    let object = folder.join(name).with_extension("o");
    let source = Path::new("c").join(name).with_extension("c");
    run(Command::new("gcc").args(FLAGS).arg("-c").arg(source).arg("-o").arg(&object));
    object
}

/// Runs a command that has to succeed.
fn run(command: &mut Command) {
    let done = command.status().unwrap_or_else(|error| panic!("{command:?}: {error}"));
    assert!(done.success(), "{command:?}: {done}");
}
