//! Stand-in for `heapless`: a vector of fixed capacity, and a map of fixed capacity hashed with FNV-1a.
#![no_std]
#![allow(clippy::result_unit_err)]

mod map;
mod vec;

pub use map::FnvIndexMap;
pub use vec::Vec;
