//! The header in C and C++, and the same exchange in C and in Rust. The compilers `cc` and `c++` must be there.

#[allow(dead_code)]
#[path = "../examples/talk.rs"]
mod talk;

use std::path::{Path, PathBuf};
use std::process::{Command, Output};

/// Written by hand from DSP0236's header.
const EXPECTED: &str = include_str!("c/talk.txt");

const STRICT: [&str; 4] = ["-pedantic", "-Wall", "-Wextra", "-Werror"];

fn root() -> PathBuf {
    Path::new(env!("CARGO_MANIFEST_DIR")).join("..")
}

/// The compiler takes these arguments without a complaint.
fn compile(compiler: &str, arguments: &[&str]) {
    let include = format!("-I{}", root().join("include").display());
    let output = Command::new(compiler).args(STRICT).arg(include).args(arguments).output();
    assert_well(&output.unwrap_or_else(|err| panic!("{compiler}: {err}")));
}

fn assert_well(output: &Output) {
    let said = [&output.stdout[..], &output.stderr].concat();
    assert!(output.status.success(), "{}", String::from_utf8_lossy(&said));
}

/// Compiles a C program, runs it and gives what it prints.
fn run(source: &Path, name: &str) -> String {
    let program = Path::new(env!("CARGO_TARGET_TMPDIR")).join(name);
    let paths = [source, Path::new(env!("HYPHALOOM_ARCHIVE")), &program].map(|p| p.display().to_string());
    compile("cc", &["-std=c99", &paths[0], &paths[1], "-o", &paths[2]]);
    let output = Command::new(&program).output().expect("it is compiled for this machine");
    assert_well(&output);
    String::from_utf8(output.stdout).expect("text")
}

#[test]
fn talk_in_rust() {
    assert_eq!(talk::exchange().as_deref(), Ok(EXPECTED));
}

#[test]
fn talk_in_c() {
    assert_eq!(run(&root().join("examples/talk.c"), "talk"), EXPECTED);
}

/// A wire and a clock for the README's lines in C.
const WIRE: &str = include_str!("c/front_door.c");

/// The README's lines in C, a board's loop, on that wire.
#[test]
fn the_front_door_in_c() {
    let readme = std::fs::read_to_string(root().join("README.md")).expect("a README");
    let (_, after) = readme.split_once("```c\n").expect("a block in C");
    let (block, _) = after.split_once("```").expect("the block's end");
    let source = Path::new(env!("CARGO_TARGET_TMPDIR")).join("front_door.c");
    std::fs::write(&source, [block, WIRE].concat()).expect("a place for it");
    assert_eq!(run(&source, "front_door"), "");
}

#[test]
fn edges_in_c() {
    assert_eq!(run(&Path::new(env!("CARGO_MANIFEST_DIR")).join("tests/c/edges.c"), "edges"), "");
}

#[test]
fn the_header_stands_alone_in_c_and_in_cxx() {
    let header = root().join("include/hyphaloom.h").display().to_string();
    for (compiler, standard, language) in [("cc", "-std=c99", "c"), ("cc", "-std=c11", "c"), ("c++", "-std=c++11", "c++")] {
        compile(compiler, &[standard, "-fsyntax-only", "-x", language, &header]);
    }
}
