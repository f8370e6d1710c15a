//! Finds the archive of the proved port: in HYPHALOOM_LIB_DIR, else in ../target/native. A shared library there will do
//! as well, so that one build can be run with several ports (`changed`). Without either the port is left out.

use std::env;
use std::path::{Path, PathBuf};

fn main() {
    println!("cargo::rustc-check-cfg=cfg(board)");
    println!("cargo::rerun-if-env-changed=HYPHALOOM_LIB_DIR");
    let here = env::var("CARGO_MANIFEST_DIR").unwrap();
    let given = env::var_os("HYPHALOOM_LIB_DIR").map(PathBuf::from);
    let folder = given.unwrap_or_else(|| Path::new(&here).join("../target/native"));
    for (file, kind) in [("libhyphaloom.a", "static"), ("libhyphaloom.so", "dylib")] {
        let library = folder.join(file);
        println!("cargo::rerun-if-changed={}", library.display());
        if library.is_file() {
            println!("cargo::rustc-cfg=board");
            println!("cargo::rustc-link-search=native={}", folder.display());
            println!("cargo::rustc-link-lib={kind}=hyphaloom");
            return;
        }
    }
}
