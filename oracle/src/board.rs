//! The proved port, through the calls that its archive exports.
//!
//! Its state is bytes in a private buffer, with guard bytes on both sides. After a call every byte of it is in a field
//! that is in use, or is 0 (`stray_byte`). Rows are filled before a call, and a refusal must leave them so. What is not as it
//! must be is a panic, which a comparison counts as a difference.

use crate::port::*;
use crate::rows::*;
use std::ops::Range;

// The one place of the declarations. Its lines are as wide as those of rust/.
#[path = "../../rust/src/exported.rs"]
#[rustfmt::skip]
mod exported;

/// The calls over slices and rows.
pub mod raw {
    use super::exported::*;

    /// How many bytes a state has.
    pub const STATE: usize = 2248;

    pub fn new(state: &mut [u8], own: u8, mtu: usize, clock: u64) -> u8 {
        unsafe { hyphaloom_new(state.as_mut_ptr(), state.len(), own, mtu, clock) }
    }

    pub fn is_kept(state: &[u8]) -> bool {
        unsafe { hyphaloom_is_kept(state.as_ptr(), state.len()) }
    }

    pub fn set_eid(state: &mut [u8], eid: u8) -> u8 {
        unsafe { hyphaloom_set_eid(state.as_mut_ptr(), state.len(), eid) }
    }

    pub fn eid(state: &[u8]) -> u8 {
        unsafe { hyphaloom_eid(state.as_ptr(), state.len()) }
    }

    pub fn is_local_dest(state: &[u8], packet: &[u8]) -> bool {
        unsafe { hyphaloom_is_local_dest(state.as_ptr(), state.len(), packet.as_ptr(), packet.len()) }
    }

    pub fn start_send(state: &mut [u8], send: &[u64; 10], fragmenter: &mut [u64; 13]) -> u8 {
        unsafe { hyphaloom_start_send(state.as_mut_ptr(), state.len(), send, fragmenter) }
    }

    pub fn fragment(fragmenter: &mut [u64; 13], payload: &[u8], out: &mut [u8], len: &mut u64) -> u8 {
        let (from, to) = (payload.as_ptr(), out.as_mut_ptr());
        unsafe { hyphaloom_fragment(fragmenter, from, payload.len(), to, out.len(), len) }
    }

    pub fn update(state: &mut [u8], clock: u64, next: &mut [u64; 2]) -> u8 {
        unsafe { hyphaloom_update(state.as_mut_ptr(), state.len(), clock, next) }
    }

    pub fn receive(state: &mut [u8], pool: &mut [u8], packet: &[u8], handle: &mut [u64; 2]) -> u8 {
        let (at, len) = (state.as_mut_ptr(), state.len());
        unsafe { hyphaloom_receive(at, len, pool.as_mut_ptr(), pool.len(), packet.as_ptr(), packet.len(), handle) }
    }

    pub fn get_deferred(state: &mut [u8], source: u8, owner: bool, tag: u8, handle: &mut [u64; 2]) {
        unsafe { hyphaloom_get_deferred(state.as_mut_ptr(), state.len(), source, owner.into(), tag, handle) }
    }

    pub fn get_deferred_bycookie(state: &mut [u8], cookies: &[u64], handle: &mut [u64; 2]) {
        let (at, len) = (state.as_mut_ptr(), state.len());
        unsafe { hyphaloom_get_deferred_bycookie(at, len, cookies.as_ptr(), cookies.len(), handle) }
    }

    pub fn fetch_message(state: &[u8], pool: &[u8], index: usize, issue: u64, message: &mut [u64; 10]) -> u8 {
        let (at, len) = (state.as_ptr(), state.len());
        unsafe { hyphaloom_fetch_message(at, len, pool.as_ptr(), pool.len(), index, issue, message) }
    }

    pub fn finished_receive(state: &mut [u8], index: usize, issue: u64) -> u8 {
        unsafe { hyphaloom_finished_receive(state.as_mut_ptr(), state.len(), index, issue) }
    }

    pub fn return_handle(state: &mut [u8], index: usize, issue: u64) -> u8 {
        unsafe { hyphaloom_return_handle(state.as_mut_ptr(), state.len(), index, issue) }
    }

    pub fn set_cookie(state: &mut [u8], index: usize, issue: u64, cookie: Option<u64>) -> u8 {
        let (has, value) = (cookie.is_some().into(), cookie.unwrap_or(0));
        unsafe { hyphaloom_set_cookie(state.as_mut_ptr(), state.len(), index, issue, has, value) }
    }

    pub fn cancel_flow(state: &mut [u8], source: u8, tag: u8) -> u8 {
        unsafe { hyphaloom_cancel_flow(state.as_mut_ptr(), state.len(), source, tag) }
    }

    pub fn free_tags(state: &[u8], peer: u8) -> u8 {
        unsafe { hyphaloom_free_tags(state.as_ptr(), state.len(), peer) }
    }
}

// Where the parts of the state lie
const FLOWS_AT: usize = 40;
const FLOW: usize = 32;
const SLOTS_AT: usize = FLOWS_AT + FLOW * FLOWS;
const SLOT: usize = 40;
const COUNTER_AT: usize = 4;
const ISSUE_AT: usize = 24;

const GUARD: u8 = 0xc5;
/// What rows hold before a call.
const MARK: u64 = 7777;

#[repr(C)]
struct Guarded {
    before: [u8; 64],
    state: [u8; raw::STATE],
    after: [u8; 64],
}

pub struct Board(Box<Guarded>);

/// A row that a call is lent, with one more word behind it.
#[repr(C)]
pub struct Row<const N: usize> {
    words: [u64; N],
    after: u64,
}

impl<const N: usize> Row<N> {
    fn new() -> Self {
        Self { words: [MARK; N], after: MARK }
    }

    /// The row after a call that answered `number`.
    fn after(self, number: u8) -> Result<Self, Refusal> {
        assert_eq!(self.after, MARK, "a word behind a row changed");
        told(number).inspect_err(|_| assert_eq!(self.words, [MARK; N], "a refusal changed a row"))?;
        Ok(self)
    }
}

/// 0, or a refusal's number.
fn told(number: u8) -> Result<(), Refusal> {
    use Refusal::*;
    let refusals = [InvalidInput, NoSpace, BadArgument, TagUnavailable, Unreachable, PoolShort];
    match number {
        0 => Ok(()),
        _ => Err(*refusals.get(usize::from(number) - 1).unwrap_or_else(|| panic!("no refusal: {number}"))),
    }
}

fn handle_of([index, issue]: [u64; 2]) -> Option<Handle> {
    assert!(issue > 0 || index == 0, "an index {index} without a handle");
    (issue > 0).then_some(Handle { index: index as usize, issue })
}

// Decoding

/// The number in so many bytes, the lowest first.
fn number(bytes: &[u8], at: usize, width: usize) -> u64 {
    let mut wide = [0; 8];
    wide[..width].copy_from_slice(&bytes[at..at + width]);
    u64::from_le_bytes(wide)
}

fn stamp(bytes: &[u8], clock: usize, counter: usize) -> Stamp {
    Stamp { clock: number(bytes, clock, 8), counter: number(bytes, counter, 4) as u32 }
}

fn flag(byte: u8) -> bool {
    assert!(byte < 2, "{byte} is neither yes nor no");
    byte == 1
}

/// A part that holds nothing where this byte is 0.
fn absent(byte: u8, part: Range<usize>) -> Range<usize> {
    if byte == 0 {
        part
    } else {
        0..0
    }
}

/// What holds nothing in a flow's place: all of a free one; else what lies between the fields, a cookie that the flow
/// lacks, a stamp that it lacks.
fn flow_gaps(b: &[u8]) -> [Range<usize>; 7] {
    [absent(b[0], 0..FLOW), 3..4, 5..6, 7..8, absent(b[4], 8..16), absent(b[6], 16..28), 28..FLOW]
}

/// What holds nothing in a slot: all of an empty one; else what lies between the fields, a cookie that it lacks, the issue
/// number where no handle is out. The sequence of a done slot is a field: it stays as the last packet has left it.
fn slot_gaps(b: &[u8]) -> [Range<usize>; 4] {
    let is_out = u8::from(b[0] == 3);
    [absent(b[0], 0..SLOT), 13..16, absent(b[12], 24..32), absent(is_out, 32..SLOT)]
}

/// Most blocks are all zeros, and most gaps of the others are.
fn stray<const N: usize>(b: &[u8], gaps: fn(&[u8]) -> [Range<usize>; N]) -> Option<usize> {
    let is_zero = |part: &[u8]| part == &[0; SLOT][..part.len()];
    if is_zero(b) {
        return None;
    }
    let gap = gaps(b).into_iter().find(|gap| !is_zero(&b[gap.clone()]))?;
    gap.into_iter().find(|at| b[*at] != 0)
}

/// The place of a byte that holds nothing and is not 0.
pub fn stray_byte(state: &[u8]) -> Option<usize> {
    let head = stray(&state[..FLOWS_AT], |_| [3..4]);
    let flows = (FLOWS_AT..SLOTS_AT).step_by(FLOW).map(|at| (at, &state[at..at + FLOW]));
    let slots = (SLOTS_AT..raw::STATE).step_by(SLOT).map(|at| (at, &state[at..at + SLOT]));
    let in_flows = flows.filter_map(|(at, b)| stray(b, flow_gaps).map(|n| at + n));
    let in_slots = slots.filter_map(|(at, b)| stray(b, slot_gaps).map(|n| at + n));
    head.into_iter().chain(in_flows).chain(in_slots).next()
}

fn flow_view(b: &[u8]) -> Option<FlowView> {
    if !flag(b[0]) {
        return None;
    }
    Some(FlowView {
        peer: b[1],
        tag: b[2],
        cookie: flag(b[4]).then(|| number(b, 8, 8)),
        expiry: flag(b[6]).then(|| stamp(b, 16, 24)),
    })
}

fn slot_view(b: &[u8], pool: &[u8]) -> Option<SlotView> {
    let phase = match b[0] {
        0 => return None,
        1 => Phase::Collecting { expect: b[5] },
        2 => Phase::Done { handle: None },
        3 => Phase::Done { handle: Some(number(b, 32, 8)) },
        other => panic!("no state of a slot: {other}"),
    };
    Some(SlotView {
        phase,
        source: b[2],
        dest: b[1],
        tag: Tag { owner: flag(b[3] >> 3), value: b[3] & 7 },
        typ: b[4] & 0x7f,
        ic: b[4] >> 7 == 1,
        cookie: flag(b[12]).then(|| number(b, 24, 8)),
        stamp: stamp(b, 16, 8),
        body: pool[..number(b, 6, 2) as usize].to_vec(),
    })
}

impl Board {
    /// The state, lent to a call that may write it; afterwards it is looked at.
    fn lend<T>(&mut self, call: impl FnOnce(&mut [u8]) -> T) -> T {
        let answer = call(&mut self.0.state);
        self.look();
        answer
    }

    /// Checks that the guards stand, that the bytes between them are a state, and that those that hold nothing are 0.
    fn look(&self) {
        self.look_around();
        assert!(raw::is_kept(self.state()), "the bytes are no state");
        self.look_between();
    }

    fn look_between(&self) {
        if let Some(at) = stray_byte(self.state()) {
            panic!("byte {at} of the state holds nothing and is {:02x}", self.state()[at]);
        }
    }

    fn look_around(&self) {
        assert_eq!(self.0.before, [GUARD; 64], "bytes before the state changed");
        assert_eq!(self.0.after, [GUARD; 64], "bytes behind the state changed");
    }

    fn state(&self) -> &[u8] {
        &self.0.state
    }

    fn flow_views(&self) -> Vec<FlowView> {
        let places = self.state()[FLOWS_AT..SLOTS_AT].chunks_exact(FLOW);
        let mut flows: Vec<_> = places.filter_map(flow_view).collect();
        flows.sort();
        flows
    }
}

impl Port for Board {
    type Fragmenter = Row<13>;

    /// The buffer is filled before: `new` sets every byte that is read later, or none when it refuses.
    fn new(own: u8, mtu: usize, clock: u64) -> Result<Self, Refusal> {
        let guarded = Guarded { before: [GUARD; 64], state: [GUARD; raw::STATE], after: [GUARD; 64] };
        let mut board = Board(Box::new(guarded));
        let said = told(raw::new(&mut board.0.state, own, mtu, clock));
        board.look_around();
        said.inspect_err(|_| assert!(board.state().iter().all(|b| *b == GUARD), "a refused new changed the state"))?;
        board.look();
        Ok(board)
    }

    fn set_eid(&mut self, eid: u8) -> Result<(), Refusal> {
        told(self.lend(|state| raw::set_eid(state, eid)))
    }

    fn eid(&self) -> u8 {
        raw::eid(self.state())
    }

    fn is_local_dest(&self, packet: &[u8]) -> bool {
        raw::is_local_dest(self.state(), packet)
    }

    fn start_send(&mut self, send: &Send) -> Result<Row<13>, Refusal> {
        let mut row = Row::new();
        let number = self.lend(|state| raw::start_send(state, &send_row(send), &mut row.words));
        row.after(number)
    }

    fn fragment(fragmenter: &mut Row<13>, payload: &[u8], out: &mut [u8]) -> Step {
        let before = fragmenter.words;
        let mut len = MARK;
        let said = told(raw::fragment(&mut fragmenter.words, payload, out, &mut len));
        assert_eq!(fragmenter.after, MARK, "a word behind a row changed");
        if said.is_ok() && len > 0 {
            return Step::Packet(len as usize);
        }
        assert_eq!(fragmenter.words, before, "a step without a packet changed the fragmenter");
        let FragmenterView { tag, cookie, .. } = fragmenter_of(&before);
        match said {
            Ok(()) => Step::Complete(tag, cookie),
            Err(refusal) => {
                assert_eq!(len, MARK, "a refusal changed the length");
                Step::Refused(refusal, cookie)
            }
        }
    }

    fn update(&mut self, clock: u64) -> Result<(u64, bool), Refusal> {
        let mut row = Row::new();
        let number = self.lend(|state| raw::update(state, clock, &mut row.words));
        let [next, expired] = row.after(number)?.words;
        assert!(expired < 2, "{expired} is neither yes nor no");
        Ok((next, expired == 1))
    }

    fn receive(&mut self, packet: &[u8], pool: &mut [u8]) -> Result<Received, Refusal> {
        let mut row = Row::new();
        let number = self.lend(|state| raw::receive(state, pool, packet, &mut row.words));
        let Some(handle) = handle_of(row.after(number)?.words) else { return Ok(Received::More) };
        let message = self.fetch_message(handle, pool).expect("the message just handed out");
        Ok(Received::Message(message, handle))
    }

    fn get_deferred(&mut self, source: u8, tag: Tag) -> Option<Handle> {
        let mut row = Row::new();
        self.lend(|state| raw::get_deferred(state, source, tag.owner, tag.value, &mut row.words));
        handle_of(row.after(0).ok()?.words)
    }

    fn get_deferred_bycookie(&mut self, cookies: &[u64]) -> Option<Handle> {
        let mut row = Row::new();
        self.lend(|state| raw::get_deferred_bycookie(state, cookies, &mut row.words));
        handle_of(row.after(0).ok()?.words)
    }

    fn fetch_message(&mut self, handle: Handle, pool: &[u8]) -> Result<Message, Refusal> {
        let mut row = Row::new();
        let number = raw::fetch_message(self.state(), pool, handle.index, handle.issue, &mut row.words);
        self.look_around();
        let row = row.after(number)?.words;
        assert_eq!(row[8], (BODY * handle.index) as u64, "the body's place");
        Ok(message_of(&row, pool))
    }

    fn finished_receive(&mut self, handle: Handle) -> Result<(), Refusal> {
        told(self.lend(|state| raw::finished_receive(state, handle.index, handle.issue)))
    }

    fn return_handle(&mut self, handle: Handle) -> Result<(), Refusal> {
        told(self.lend(|state| raw::return_handle(state, handle.index, handle.issue)))
    }

    fn set_cookie(&mut self, handle: Handle, cookie: Cookie) -> Result<(), Refusal> {
        told(self.lend(|state| raw::set_cookie(state, handle.index, handle.issue, cookie)))
    }

    fn cancel_flow(&mut self, source: u8, tag: u8) -> Result<(), Refusal> {
        told(self.lend(|state| raw::cancel_flow(state, source, tag)))
    }

    fn free_tags(&self, peer: u8) -> u8 {
        raw::free_tags(self.state(), peer)
    }

    fn snapshot(&self, pool: &[u8]) -> Snapshot {
        self.look_between();
        let state = self.state();
        let slot = |index| slot_view(&state[SLOTS_AT + SLOT * index..][..SLOT], &pool[BODY * index..]);
        Snapshot {
            own: state[0],
            mtu: number(state, 32, 8) as usize,
            now: stamp(state, 8, COUNTER_AT),
            planned: number(state, 16, 8),
            next_tag: state[1],
            next_seq: state[2],
            issues: number(state, ISSUE_AT, 8),
            flows: self.flow_views(),
            slots: std::array::from_fn(slot),
        }
    }

    fn view(fragmenter: &Row<13>) -> FragmenterView {
        fragmenter_of(&fragmenter.words)
    }

    fn preset(&mut self, counter: u32, issues: u64) {
        self.0.state[COUNTER_AT..][..4].copy_from_slice(&counter.to_le_bytes());
        self.0.state[ISSUE_AT..][..8].copy_from_slice(&issues.to_le_bytes());
        self.look();
    }
}
