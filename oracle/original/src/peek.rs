//! The private state, for comparison alone.

use crate::fragment::Fragmenter;
use crate::{AppCookie, EventStamp, ReceiveHandle, Stack};
use core::fmt::{Debug, Write};

pub type Stamp = (u64, u32);

pub struct Head {
    pub mtu: usize,
    pub now: Stamp,
    pub planned: u64,
    pub next_tag: u8,
    pub next_seq: u8,
}

pub struct FlowPeek {
    pub peer: u8,
    pub tag: u8,
    pub cookie: Option<usize>,
    pub expiry: Option<Stamp>,
}

pub struct SlotPeek<'a> {
    pub source: u8,
    pub dest: u8,
    pub owner: bool,
    pub tag: u8,
    pub cookie: Option<usize>,
    pub stamp: Stamp,
    pub handle_out: bool,
    pub typ: u8,
    pub ic: bool,
    /// The sequence to expect, while collecting.
    pub next_seq: Option<u8>,
    pub body: &'a [u8],
}

pub struct FragmenterPeek {
    pub source: u8,
    pub typ: u8,
    pub ic: bool,
    pub seq: u8,
    pub mtu: usize,
    pub first: bool,
    pub used: usize,
}

pub fn handle(index: usize) -> ReceiveHandle {
    ReceiveHandle(index)
}

pub fn index(handle: &ReceiveHandle) -> usize {
    handle.0
}

pub fn set_counter(stack: &mut Stack, counter: u32) {
    stack.now.counter = counter;
}

pub fn head(stack: &Stack) -> Head {
    Head {
        mtu: stack.mtu,
        now: stamp(&stack.now),
        planned: stack.next_timeout,
        next_tag: stack.next_tag,
        next_seq: stack.next_seq,
    }
}

pub fn flows(stack: &Stack) -> impl Iterator<Item = FlowPeek> + '_ {
    stack.flows.iter().map(|((peer, tag), flow)| FlowPeek {
        peer: peer.0,
        tag: tag.0,
        cookie: cookie(flow.cookie),
        expiry: flow.expiry_stamp.as_ref().map(stamp),
    })
}

pub fn slot(stack: &Stack, index: usize) -> Option<SlotPeek<'_>> {
    let (re, body) = stack.reassemblers[index].as_ref()?;
    // A done slot expects no sequence; its next field ends the reading.
    let done = re.is_done();
    let shown = Shown::of(re, ["typ", "ic", if done { "handle_taken" } else { "next_seq" }]);
    Some(SlotPeek {
        source: re.peer.0,
        dest: re.dest_eid.0,
        owner: re.tag.is_owner(),
        tag: re.tag.tag().0,
        cookie: cookie(re.cookie),
        stamp: stamp(&re.stamp),
        handle_out: re.handle_taken(),
        typ: shown.number(0) as u8,
        ic: shown.flag(1),
        next_seq: (!done).then(|| shown.number(2) as u8),
        body: body.as_slice(),
    })
}

pub fn fragmenter(f: &Fragmenter) -> FragmenterPeek {
    let shown = Shown::of(f, ["src", "typ", "ic", "seq", "mtu", "first", "payload_used"]);
    FragmenterPeek {
        source: shown.number(0) as u8,
        typ: shown.number(1) as u8,
        ic: shown.flag(2),
        seq: shown.number(3) as u8,
        mtu: shown.number(4) as usize,
        first: shown.flag(5),
        used: shown.number(6) as usize,
    }
}

fn stamp(s: &EventStamp) -> Stamp {
    (s.clock, s.counter)
}

fn cookie(c: Option<AppCookie>) -> Option<usize> {
    c.map(|c| c.0)
}

/// Fields that no code outside their module can read, taken from the pieces in which `Debug` writes a value.
struct Shown<const N: usize> {
    names: [&'static str; N],
    values: [Option<u64>; N],
    /// The field whose value comes next.
    current: Option<usize>,
}

impl<const N: usize> Write for Shown<N> {
    fn write_str(&mut self, piece: &str) -> core::fmt::Result {
        match (self.current, value(piece)) {
            (Some(field), Some(value)) => {
                self.values[field] = Some(value);
                self.current = None;
                if field == N - 1 {
                    return Err(core::fmt::Error);
                }
            }
            (None, None) => self.current = self.names.iter().position(|name| *name == piece),
            _ => {}
        }
        Ok(())
    }
}

impl<const N: usize> Shown<N> {
    /// The fields in the order in which they are written; what follows the last is not looked at.
    fn of(value: &impl Debug, names: [&'static str; N]) -> Self {
        let mut shown = Self { names, values: [None; N], current: None };
        let _ = write!(shown, "{value:?}");
        shown
    }

    fn number(&self, field: usize) -> u64 {
        self.values[field].unwrap_or_else(|| panic!("Debug shows no {}", self.names[field]))
    }

    fn flag(&self, field: usize) -> bool {
        self.number(field) == 1
    }
}

fn value(piece: &str) -> Option<u64> {
    match piece {
        "true" => Some(1),
        "false" => Some(0),
        _ if piece.as_bytes().first().is_some_and(u8::is_ascii_digit) => piece.parse().ok(),
        _ => None,
    }
}
