//! Finds the archives of the proved code, which `make archives` writes, and links those that have the
//! library's calls.

use std::env;
use std::path::PathBuf;

/// The libraries whose calls are exported, each in an archive of its name. An archive has its own
/// library's calls alone for all to see, so the three go into one program.
const CRATES: [&str; 3] = ["plan_calls", "dispatcher_calls", "knee"];

/// One function of the code made visible, which the test that calls it links itself.
const FUNCTION: &str = "time_needed";

fn main() {
    let manifest = env::var("CARGO_MANIFEST_DIR").expect("cargo names the package's folder");
    let folder = PathBuf::from(manifest).join("../../target/staticlib");
    println!("cargo:rustc-link-search=native={}", folder.display());
    for name in CRATES.iter().chain([&FUNCTION]) {
        let archive = folder.join(format!("lib{name}.a"));
        println!("cargo:rerun-if-changed={}", archive.display());
        assert!(
            archive.is_file(),
            "{} is missing: `make archives` makes it",
            archive.display()
        );
    }
    for name in CRATES {
        println!("cargo:rustc-link-lib=static={name}");
    }
}
