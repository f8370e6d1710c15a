//! The exported calls over references, with all the `unsafe` of this crate.
//!
//! The calls ask two things. Their state is one that `hyphaloom_new` filled and only they changed since, or one that
//! `hyphaloom_is_kept` knows as such: [`State`] is made by [`State::new`] and [`State::from_bytes`] alone, and only the calls
//! write it. And the buffers of one call are whole, and what is written overlaps nothing else: they come from references, of
//! which those written are `&mut`. A state's bytes leave this module as a shared reference alone, which no call that writes the
//! state can meet.

use crate::config::STATE_BYTES;
use crate::exported::*;
use crate::{AppCookie, Error, Result};

/// dest, typ, tag_kind, tag, expires, ic, has_mtu, mtu, has_cookie, cookie
pub(crate) type SendRow = [u64; 10];
/// src, dest, typ, owner, tag, ic, seq, mtu, first, done, has_cookie, cookie, payload_used
pub(crate) type FragmenterRow = [u64; 13];
/// source, dest, owner, tag, typ, ic, has_cookie, cookie, at, len
pub(crate) type MessageRow = [u64; 10];
/// index, issue; issue 0 is no handle
pub(crate) type HandleRow = [u64; 2];
/// millis, expired
pub(crate) type NextRow = [u64; 2];

/// A call's answer: 0, or a refusal's number, 1 to 6.
fn answer(number: u8) -> Result<()> {
    Err(match number {
        0 => return Ok(()),
        1 => Error::InvalidInput,
        2 => Error::NoSpace,
        3 => Error::BadArgument,
        4 => Error::TagUnavailable,
        5 => Error::Unreachable,
        _ => Error::PoolShort,
    })
}

/// A cookie from two words of a row.
pub(crate) const fn cookie_of(has: u64, value: u64) -> Option<AppCookie> {
    match has {
        0 => None,
        _ => Some(AppCookie(value)),
    }
}

/// The length of the packet written, or 0 where all is sent.
pub(crate) fn fragment(fragmenter: &mut FragmenterRow, payload: &[u8], out: &mut [u8]) -> Result<usize> {
    let mut len = 0;
    // SAFETY: no state; four references, of which three are `&mut`, so the buffers are whole and apart.
    answer(unsafe { hyphaloom_fragment(fragmenter, payload.as_ptr(), payload.len(), out.as_mut_ptr(), out.len(), &mut len) })?;
    Ok(len as usize)
}

/// The bytes of a stack.
pub(crate) struct State([u8; STATE_BYTES]);

impl State {
    pub(crate) fn new(own: u8, mtu: usize, clock: u64) -> Result<State> {
        let mut state = State([0; STATE_BYTES]);
        // SAFETY: asks nothing of the state; its buffer is whole.
        answer(unsafe { hyphaloom_new(state.0.as_mut_ptr(), STATE_BYTES, own, mtu, clock) })?;
        Ok(state)
    }

    /// The state that these bytes are, if they are one.
    pub(crate) fn from_bytes(bytes: [u8; STATE_BYTES]) -> Option<State> {
        let state = State(bytes);
        state.is_kept().then_some(state)
    }

    pub(crate) fn bytes(&self) -> &[u8; STATE_BYTES] {
        &self.0
    }

    pub(crate) fn is_kept(&self) -> bool {
        // SAFETY: asks nothing of the state; its buffer is whole.
        unsafe { hyphaloom_is_kept(self.0.as_ptr(), STATE_BYTES) }
    }

    pub(crate) fn set_eid(&mut self, eid: u8) -> Result<()> {
        // SAFETY: a state; no other buffer.
        answer(unsafe { hyphaloom_set_eid(self.0.as_mut_ptr(), STATE_BYTES, eid) })
    }

    pub(crate) fn eid(&self) -> u8 {
        // SAFETY: a state; no other buffer.
        unsafe { hyphaloom_eid(self.0.as_ptr(), STATE_BYTES) }
    }

    pub(crate) fn is_local_dest(&self, packet: &[u8]) -> bool {
        // SAFETY: a state; `packet` is whole; neither is written.
        unsafe { hyphaloom_is_local_dest(self.0.as_ptr(), STATE_BYTES, packet.as_ptr(), packet.len()) }
    }

    pub(crate) fn start_send(&mut self, send: &SendRow) -> Result<FragmenterRow> {
        let mut fragmenter = [0; 13];
        // SAFETY: a state; two rows apart from it and from each other.
        answer(unsafe { hyphaloom_start_send(self.0.as_mut_ptr(), STATE_BYTES, send, &mut fragmenter) })?;
        Ok(fragmenter)
    }

    pub(crate) fn update(&mut self, clock: u64) -> Result<NextRow> {
        let mut next = [0; 2];
        // SAFETY: a state; one row apart from it.
        answer(unsafe { hyphaloom_update(self.0.as_mut_ptr(), STATE_BYTES, clock, &mut next) })?;
        Ok(next)
    }

    pub(crate) fn receive(&mut self, pool: &mut [u8], packet: &[u8]) -> Result<HandleRow> {
        let mut handle = [0; 2];
        let (state, place) = (self.0.as_mut_ptr(), pool.as_mut_ptr());
        // SAFETY: a state; `pool` is `&mut`, so `packet` is apart from it, and both from the state and the row.
        answer(unsafe { hyphaloom_receive(state, STATE_BYTES, place, pool.len(), packet.as_ptr(), packet.len(), &mut handle) })?;
        Ok(handle)
    }

    pub(crate) fn get_deferred(&mut self, source: u8, owner: bool, tag: u8) -> HandleRow {
        let mut handle = [0; 2];
        // SAFETY: a state; one row apart from it.
        unsafe { hyphaloom_get_deferred(self.0.as_mut_ptr(), STATE_BYTES, source, owner.into(), tag, &mut handle) };
        handle
    }

    pub(crate) fn get_deferred_bycookie(&mut self, cookies: &[AppCookie]) -> HandleRow {
        let mut handle = [0; 2];
        // an `AppCookie` is a `u64` in memory, as it is `repr(transparent)`
        let (list, len) = (cookies.as_ptr().cast::<u64>(), cookies.len());
        // SAFETY: a state; the list is whole and apart from it and from the row.
        unsafe { hyphaloom_get_deferred_bycookie(self.0.as_mut_ptr(), STATE_BYTES, list, len, &mut handle) };
        handle
    }

    pub(crate) fn fetch_message(&self, pool: &[u8], index: usize, issue: u64) -> Result<MessageRow> {
        let mut message = [0; 10];
        let state = self.0.as_ptr();
        // SAFETY: a state; `pool` is whole; the row, which alone is written, is apart from both.
        answer(unsafe { hyphaloom_fetch_message(state, STATE_BYTES, pool.as_ptr(), pool.len(), index, issue, &mut message) })?;
        Ok(message)
    }

    pub(crate) fn finished_receive(&mut self, index: usize, issue: u64) -> Result<()> {
        // SAFETY: a state; no other buffer.
        answer(unsafe { hyphaloom_finished_receive(self.0.as_mut_ptr(), STATE_BYTES, index, issue) })
    }

    pub(crate) fn return_handle(&mut self, index: usize, issue: u64) -> Result<()> {
        // SAFETY: a state; no other buffer.
        answer(unsafe { hyphaloom_return_handle(self.0.as_mut_ptr(), STATE_BYTES, index, issue) })
    }

    pub(crate) fn set_cookie(&mut self, index: usize, issue: u64, cookie: Option<AppCookie>) -> Result<()> {
        let (has, value) = (cookie.is_some().into(), cookie.map_or(0, |c| c.0));
        // SAFETY: a state; no other buffer.
        answer(unsafe { hyphaloom_set_cookie(self.0.as_mut_ptr(), STATE_BYTES, index, issue, has, value) })
    }

    pub(crate) fn cancel_flow(&mut self, source: u8, tag: u8) -> Result<()> {
        // SAFETY: a state; no other buffer.
        answer(unsafe { hyphaloom_cancel_flow(self.0.as_mut_ptr(), STATE_BYTES, source, tag) })
    }

    pub(crate) fn free_tags(&self, peer: u8) -> u8 {
        // SAFETY: a state; no other buffer.
        unsafe { hyphaloom_free_tags(self.0.as_ptr(), STATE_BYTES, peer) }
    }
}

#[cfg(test)]
mod tests {
    use super::*;

    /// What `new` says to a state buffer of so many bytes, and whether it has written.
    fn new_in(len: usize) -> (Result<()>, bool) {
        let mut bytes = [0xEE; STATE_BYTES + 8];
        // SAFETY: asks nothing of the state; `len` is at most the buffer's length.
        let said = answer(unsafe { hyphaloom_new(bytes.as_mut_ptr(), len.min(STATE_BYTES + 8), 8, 255, 0) });
        assert_eq!(bytes[STATE_BYTES..], [0xEE; 8], "past the state");
        (said, bytes[..STATE_BYTES] != [0xEE; STATE_BYTES])
    }

    #[test]
    fn a_state_has_exactly_its_size() {
        assert_eq!(new_in(0), (Err(Error::NoSpace), false));
        assert_eq!(new_in(STATE_BYTES - 1), (Err(Error::NoSpace), false));
        assert_eq!(new_in(STATE_BYTES), (Ok(()), true));
        assert_eq!(new_in(STATE_BYTES + 8), (Ok(()), true));
    }

    /// Whether so many bytes are a state, the front of a new one with other bytes behind it.
    fn kept_in(len: usize) -> bool {
        let mut bytes = [0xEE; STATE_BYTES + 8];
        // SAFETY: asks nothing of the state; the buffer is whole.
        answer(unsafe { hyphaloom_new(bytes.as_mut_ptr(), STATE_BYTES, 8, 255, 0) }).expect("a state");
        let bytes = &bytes[..len];
        // SAFETY: asks nothing of the state; the buffer is whole.
        unsafe { hyphaloom_is_kept(bytes.as_ptr(), bytes.len()) }
    }

    #[test]
    fn a_short_buffer_is_no_state() {
        for len in 0..STATE_BYTES {
            assert!(!kept_in(len), "{len} bytes");
        }
        assert!(kept_in(STATE_BYTES));
        assert!(kept_in(STATE_BYTES + 8), "what lies past the state is not looked at");
    }

    #[test]
    fn numbers_and_refusals_agree() {
        assert_eq!(answer(0), Ok(()));
        for number in 1..=6 {
            assert_eq!(answer(number).map_err(Error::number), Err(number));
        }
    }
}
