//! Copies the original into the build directory: three files byte for byte, and lib.rs without the lines named
//! below. A line that is not found exactly once stops the build.

use std::path::{Path, PathBuf};
use std::{env, fs, process};

/// Seen from this folder.
const SOURCES: &str = "../../../shared/docs/src";

const WHOLE: [&str; 3] = ["fragment.rs", "reassemble.rs", "util.rs"];

/// Modules that are no part of the core.
const LEFT_OUT: [&str; 6] = [
    "pub mod control;",
    "pub mod i2c;",
    "pub mod router;",
    "pub mod serial;",
    "pub mod usb;",
    "pub use router::Router;",
];

/// Attributes of the crate, which an included file cannot carry: src/lib.rs has them.
const CRATE_ATTRIBUTES: [&str; 4] = [
    "#![cfg_attr(not(any(feature = \"std\", test)), no_std)]",
    "#![forbid(unsafe_code)]",
    "#![allow(clippy::int_plus_one)]",
    "#![allow(clippy::too_many_arguments)]",
];

fn main() {
    let from = Path::new(&env::var("CARGO_MANIFEST_DIR").unwrap()).join(SOURCES);
    let to = PathBuf::from(env::var("OUT_DIR").unwrap());
    for name in WHOLE {
        fs::write(to.join(name), read(&from, name)).unwrap();
    }
    fs::write(to.join("root.rs"), root(&read(&from, "lib.rs"))).unwrap();
}

fn read(from: &Path, name: &str) -> String {
    let path = from.join(name);
    println!("cargo::rerun-if-changed={}", path.display());
    fs::read_to_string(&path).unwrap_or_else(|_| {
        stop(&format!("the Rust sources are missing: no shared/docs/src/{name} beside the repository"))
    })
}

/// lib.rs without its crate comment, its crate attributes and the modules left out.
fn root(text: &str) -> String {
    for line in LEFT_OUT.iter().chain(&CRATE_ATTRIBUTES) {
        if text.lines().filter(|l| l == line).count() != 1 {
            stop(&format!("lib.rs is not the one expected: not exactly one line `{line}`"));
        }
    }
    let kept = |l: &&str| !l.starts_with("//!") && !LEFT_OUT.contains(l) && !CRATE_ATTRIBUTES.contains(l);
    text.lines().filter(kept).map(|l| format!("{l}\n")).collect()
}

fn stop(why: &str) -> ! {
    println!("cargo::error={why}");
    process::exit(0)
}
