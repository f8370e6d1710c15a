//! Finds `libhyphaloom.a`: in HYPHALOOM_LIB_DIR if that is set, else where `tools/archive` leaves it for the machine at hand, or for the
//! triple that is built for.

use std::env;
use std::path::PathBuf;
use std::process::exit;

const ARCHIVE: &str = "libhyphaloom.a";

/// What cargo tells of the build.
fn told(name: &str) -> String {
    env::var(name).unwrap_or_else(|_| panic!("cargo sets {name}"))
}

/// The folder to look in.
fn folder() -> PathBuf {
    if let Some(dir) = env::var_os("HYPHALOOM_LIB_DIR") {
        return dir.into();
    }
    let target = PathBuf::from(told("CARGO_MANIFEST_DIR")).join("../target");
    let triple = told("TARGET");
    target.join(if triple == told("HOST") { "native" } else { &triple })
}

fn main() {
    println!("cargo:rerun-if-env-changed=HYPHALOOM_LIB_DIR");
    println!("cargo:rerun-if-changed=build.rs");
    let dir = folder();
    let archive = dir.join(ARCHIVE);
    println!("cargo:rerun-if-changed={}", archive.display());
    if !archive.is_file() {
        eprintln!("hyphaloom: no {ARCHIVE} in {}: run tools/archive, or set HYPHALOOM_LIB_DIR to its folder", dir.display());
        exit(1);
    }
    println!("cargo:rustc-link-search=native={}", dir.display());
    println!("cargo:rustc-link-lib=static=hyphaloom");
    println!("cargo:rustc-env=HYPHALOOM_ARCHIVE={}", archive.display());
}
