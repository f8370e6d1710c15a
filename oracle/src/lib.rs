//! Comparison of stacks that follow the rules.
//!
//! `port` is what a stack is seen through, `original`, `model` and `board` are three of them; `call`, `harness`,
//! `domain`, `generate`, `exhaustive`, `tally` and `compare` run two ports against each other, call by call; `list`, `make`
//! and `replay` are a stored list of calls with their answers.

#[cfg(board)]
pub mod board;
pub mod call;
pub mod compare;
pub mod cover;
pub mod domain;
pub mod exhaustive;
pub mod generate;
pub mod harness;
pub mod list;
pub mod make;
pub mod model;
pub mod original;
pub mod port;
pub mod replay;
pub mod rng;
pub mod rows;
pub mod tally;

/// Said where the port is asked for and the build found no archive of it.
pub const NO_BOARD: &str = "built without the port `board`: no libhyphaloom.a in HYPHALOOM_LIB_DIR or ../target/native";
