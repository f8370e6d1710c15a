//! The sizes and times of a board. Times are in milliseconds.

/// Messages that are collected or kept at a time.
pub const NUM_RECEIVE: usize = 4;

/// Longest body of a message in bytes, without the type byte.
pub const MAX_PAYLOAD: usize = 1032;

/// Requests that wait for a reply.
pub const FLOWS: usize = 64;

/// Smallest MTU: a header and the type byte.
pub const MIN_MTU: usize = 5;

/// Largest MTU of a send, header included.
pub const MAX_MTU: usize = 255;

/// Bytes of a [`Stack`](crate::Stack).
pub const STATE_BYTES: usize = 2248;

/// Bytes of a pool: [`NUM_RECEIVE`] bodies of [`MAX_PAYLOAD`] bytes.
pub const POOL_BYTES: usize = NUM_RECEIVE * MAX_PAYLOAD;

/// A message expires when it is older than this: half in, from its opening packet; whole with no handle out, from its closing one.
pub const REASSEMBLY_EXPIRY_TIMEOUT: u32 = 6000;

/// How long a whole message with no handle out is kept for [`get_deferred`](crate::Stack::get_deferred).
pub const DEFERRED_TIMEOUT: u32 = REASSEMBLY_EXPIRY_TIMEOUT;

/// A flow with expiry expires when it is older than this, from its send.
pub const FLOW_EXPIRY_TIMEOUT: u32 = 6000;

/// The next check of timeouts is at most so many milliseconds away. See [`Stack::update`](crate::Stack::update).
pub const TIMEOUT_INTERVAL: u32 = 100;
