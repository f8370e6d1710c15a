//! The core of mctp-estack 0.1.0 as build.rs reads it, and `peek`, which shows its private state to a comparison.
#![cfg_attr(not(any(feature = "std", test)), no_std)]
#![forbid(unsafe_code)]
#![allow(clippy::int_plus_one)]
#![allow(clippy::too_many_arguments)]
// Used by the modules left out.
#![allow(dead_code, unused_imports)]

include!(concat!(env!("OUT_DIR"), "/root.rs"));

pub mod peek;
