//! The domain of equality: the calls on which the original's answers bind.

use crate::call::{Call, Lent};
use crate::port::*;

/// 2^64 - 101.
const LAST_CLOCK: u64 = u64::MAX - 100;
/// The counter after the most events that one millisecond may have.
const LAST_COUNTER: u32 = u32::MAX - 1;

/// Whether the call, in this state, is in the domain.
pub fn permits(state: Option<&Snapshot>, call: &Call) -> bool {
    if let Call::New { mtu, clock, counter, .. } = call {
        return *mtu >= 5 && *clock <= LAST_CLOCK && *counter <= LAST_COUNTER;
    }
    let Some(state) = state else { return false };
    let events_left = LAST_COUNTER - state.now.counter;
    match call {
        Call::StartSend { send, .. } => send.typ <= 127 && wish_in_range(send.tag) && events_left >= 1,
        Call::Update(clock) => *clock <= LAST_CLOCK,
        Call::Receive { lent, .. } => is_full(*lent) && events_left >= 2,
        Call::GetDeferred { source, tag } => {
            tag.value <= 7 && one_handle(state, |s| s.source == *source && s.tag == *tag)
        }
        Call::GetDeferredByCookie(list) => one_handle(state, |s| s.cookie.is_some_and(|c| list.contains(&c))),
        Call::Fetch { handle, lent } => is_full(*lent) && is_genuine(state, *handle),
        Call::Finish(handle) | Call::Return(handle) | Call::SetCookie(handle, _) => is_genuine(state, *handle),
        Call::Cancel { tag, .. } => *tag <= 7,
        _ => true,
    }
}

pub fn is_genuine(state: &Snapshot, handle: Handle) -> bool {
    let out = Phase::Done { handle: Some(handle.issue) };
    state.slots.get(handle.index).and_then(Option::as_ref).is_some_and(|s| s.phase == out)
}

fn is_full(lent: Lent) -> bool {
    matches!(lent, Lent::Exact | Lent::Long)
}

fn wish_in_range(wish: TagWish) -> bool {
    match wish {
        TagWish::Fresh => true,
        TagWish::Owned(tag) | TagWish::Unowned(tag) => tag <= 7,
    }
}

/// Whether the earliest of the done slots wanted has no handle out; to one that has, the original would give a second one.
fn one_handle(state: &Snapshot, wanted: impl Fn(&SlotView) -> bool) -> bool {
    let done = |s: &&SlotView| matches!(s.phase, Phase::Done { .. });
    let earliest = state.slots.iter().flatten().filter(done).filter(|s| wanted(s)).min_by_key(|s| s.stamp);
    earliest.is_none_or(|s| s.phase == Phase::Done { handle: None })
}
