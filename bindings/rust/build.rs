//! Links the static library `sim0mq`: from the folder that `SIM0MQ_LIB_DIR` names, and where it is
//! not set from `target/native` at the root of the repository.

use std::env;
use std::path::PathBuf;

fn main() {
    println!("cargo::rerun-if-env-changed=SIM0MQ_LIB_DIR");
    println!("cargo::rerun-if-changed=build.rs");
    let folder = folder();
    let library = folder.join("libsim0mq.a");
    if !library.exists() {
        println!(
            "cargo::warning={} is not there: build it by tools/native-library, or say in \
             SIM0MQ_LIB_DIR which folder has it",
            library.display()
        );
    }
    println!("cargo::rerun-if-changed={}", library.display());
    println!("cargo::rustc-link-search=native={}", folder.display());
    println!("cargo::rustc-link-lib=static=sim0mq");
}

/// The folder with the library.
fn folder() -> PathBuf {
    match env::var_os("SIM0MQ_LIB_DIR") {
        Some(stated) => PathBuf::from(stated),
        None => {
            let package = env::var_os("CARGO_MANIFEST_DIR").expect("cargo names the package");
            PathBuf::from(package).join("../../target/native")
        }
    }
}
