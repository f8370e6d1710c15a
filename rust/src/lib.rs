//! The IO-less core of an MCTP stack (DMTF DSP0236), proved in Rattle and called from Rust.
//!
//! A [`Stack`] cuts messages into packets, joins packets into messages, keeps the flows of requests that wait for a reply, and
//! tells what has timed out. It drives no wire and has no heap: packets go through lent buffers, and bodies of messages lie in
//! a pool that the caller lends. Every call answers every input; [`Error`] has all its refusals.
//!
//! The proofs hold for a state that the calls themselves have made. [`Stack`] lets nothing else write its state, and
//! [`Stack::from_bytes`] takes only bytes that are such a state, so safe Rust cannot break that premise.
//!
//! # A request and its reply
//!
//! ```
//! use hyphaloom::{config::POOL_BYTES, AppCookie, Eid, Fragmenter, MsgIC, MsgType, Pool, ReceiveHandle, Result, SendOutput, Stack, Tag};
//!
//! /// Carries all packets of a payload to another stack, and gives the handle of the message that they make there.
//! fn carry(mut send: Fragmenter, payload: &[u8], to: &mut Stack, pool: &mut Pool) -> Result<Option<ReceiveHandle>> {
//!     let (mut packet, mut handle) = ([0; 64], None);
//!     loop {
//!         match send.fragment(payload, &mut packet) {
//!             SendOutput::Packet(p) => handle = to.receive(pool, p)?.map(|(_, handle)| handle),
//!             SendOutput::Complete { .. } => return Ok(handle),
//!             SendOutput::Error { err, .. } => return Err(err),
//!         }
//!     }
//! }
//!
//! # fn main() -> Result<()> {
//! let mut board = Stack::new(Eid(8), 64, 0)?;
//! let mut blade = Stack::new(Eid(9), 64, 0)?;
//! let mut board_pool: Pool = [0; POOL_BYTES];
//! let mut blade_pool: Pool = [0; POOL_BYTES];
//!
//! // The board asks. `None` takes a free tag, and the cookie comes back with the reply.
//! let request = board.start_send(Eid(9), MsgType(1), None, true, MsgIC(false), None, Some(AppCookie(7)))?;
//! let asked = carry(request, b"who?", &mut blade, &mut blade_pool)?;
//!
//! // The blade looks at the question and answers under the board's tag.
//! let handle = asked.expect("the last packet closes the message");
//! let question = blade.fetch_message(&blade_pool, &handle)?;
//! assert_eq!((question.source, question.payload), (Eid(8), &b"who?"[..]));
//! let tag = Tag::Unowned(question.tag.tag());
//! let reply = blade.start_send(question.source, question.typ, Some(tag), false, MsgIC(false), None, None)?;
//! blade.finished_receive(handle)?;
//!
//! // The board takes the reply, with the cookie of its question.
//! let answered = carry(reply, b"blade 41", &mut board, &mut board_pool)?;
//! let handle = answered.expect("the last packet closes the message");
//! let message = board.fetch_message(&board_pool, &handle)?;
//! assert_eq!((message.payload, message.cookie), (&b"blade 41"[..], Some(AppCookie(7))));
//! board.finished_receive(handle)?;
//! # Ok(())
//! # }
//! ```
//!
//! # Coming from mctp-estack 0.1.0
//!
//! Names and behaviour are those of its `Stack`, except that:
//!
//! - `receive` and `fetch_message` are lent the pool.
//! - `new` and the calls under a handle give a `Result` where the original panics.
//! - `fetch_message_with` is left out: fetch, then finish.
//! - All sizes and times are in [`config`], `DEFERRED_TIMEOUT` and `TIMEOUT_INTERVAL` as well.
//! - [`AppCookie`] is a `u64`; [`Stack::free_tags`] and [`Error::PoolShort`] are added.
//! - [`Stack::as_bytes`], [`Stack::from_bytes`] and [`Stack::is_kept`] are added.

#![no_std]
#![deny(missing_docs)]
#![deny(unsafe_code)]

pub mod config;
mod error;
mod exported;
#[allow(unsafe_code)]
mod ffi;
pub mod fragment;
mod stack;
mod types;

pub use error::{Error, NotKept, Result};
pub use fragment::{Fragmenter, SendOutput};
pub use stack::{MctpMessage, ReceiveHandle, Stack};
pub use types::{AppCookie, Eid, MsgIC, MsgType, Tag, TagValue};

/// A pool of just the size needed. The calls take any slice, as boards place their buffers in their own way.
pub type Pool = [u8; config::POOL_BYTES];

#[cfg(doctest)]
#[doc = include_str!("../README.md")]
mod readme {}

#[cfg(doctest)]
#[doc = include_str!("../../README.md")]
mod front_door {}
