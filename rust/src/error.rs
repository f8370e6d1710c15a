//! The refusals.

use core::fmt;

/// Why a call says no. No other refusal exists.
#[derive(Debug, Clone, Copy, PartialEq, Eq, Hash)]
pub enum Error {
    /// Bad packet, type, tag, EID, payload or clock.
    InvalidInput,
    /// No slot, message too long, or packet buffer too short.
    NoSpace,
    /// MTU, owned tag that expires, handle, or cancel under a handle.
    BadArgument,
    /// No free tag for the peer, or the table of flows is full.
    TagUnavailable,
    /// Reply without a flow.
    Unreachable,
    /// Pool under [`POOL_BYTES`](crate::config::POOL_BYTES) bytes.
    PoolShort,
}

/// What a call gives, or its refusal.
pub type Result<T> = core::result::Result<T, Error>;

impl Error {
    /// The refusal's number, 1 to 6, as the C header has it.
    pub const fn number(self) -> u8 {
        match self {
            Error::InvalidInput => 1,
            Error::NoSpace => 2,
            Error::BadArgument => 3,
            Error::TagUnavailable => 4,
            Error::Unreachable => 5,
            Error::PoolShort => 6,
        }
    }
}

impl fmt::Display for Error {
    fn fmt(&self, f: &mut fmt::Formatter<'_>) -> fmt::Result {
        f.write_str(match self {
            Error::InvalidInput => "invalid input",
            Error::NoSpace => "no space",
            Error::BadArgument => "bad argument",
            Error::TagUnavailable => "tag unavailable",
            Error::Unreachable => "unreachable",
            Error::PoolShort => "pool short",
        })
    }
}

impl core::error::Error for Error {}

/// Bytes that are no stack's. [`Stack::from_bytes`](crate::Stack::from_bytes) gives it.
#[derive(Debug, Clone, Copy, PartialEq, Eq, Hash)]
pub struct NotKept;

impl fmt::Display for NotKept {
    fn fmt(&self, f: &mut fmt::Formatter<'_>) -> fmt::Result {
        f.write_str("not the bytes of a stack")
    }
}

impl core::error::Error for NotKept {}
