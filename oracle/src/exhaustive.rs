//! All short sequences over a small alphabet, from several starting states.

use crate::call::{Call, Lent};
use crate::port::*;

pub const LETTERS: usize = 26;

const PEER: u8 = 9;
const OWNED: Tag = Tag { owner: true, value: 1 };
const REPLY: Tag = Tag { owner: false, value: 1 };
const SOM: u8 = 0x80;
const EOM: u8 = 0x40;
const TO: u8 = 0x08;

/// A starting state: its name, and the calls that lead to it.
pub struct Start {
    pub name: &'static str,
    pub calls: Vec<Call>,
    /// Words are this much shorter, where the way to the state is long.
    pub shorter: u32,
}

pub fn starts() -> Vec<Start> {
    let start = |name, more: Vec<Call>, shorter| Start { name, calls: [vec![new()], more].concat(), shorter };
    let single = |source| receive([1, 8, source, SOM | EOM | TO | 1, 1, 0x2a]);
    // The question, its reply's opening packet, and a whole reply to destination 0, which ends the flow.
    let half_in = vec![owned_send(PEER, 1), from_peer(SOM | 1, &[3, 0x15]), receive([1, 0, PEER, SOM | EOM | 1, 1])];
    let seven_tags = (0..8).filter(|tag| *tag != 1).map(|tag| owned_send(PEER, tag));
    let flows = (0..63).map(|n| owned_send(20 + n / 8, n % 8));
    vec![
        start("a fresh stack", vec![], 0),
        start("three slots done, handles out", vec![single(10), single(11), single(12)], 0),
        start("a reply half in, its flow gone", half_in, 0),
        start("seven tags of the peer in use", seven_tags.collect(), 0),
        start("63 flows", flows.collect(), 1),
    ]
}

/// The call that a letter stands for in this state.
pub fn call(letter: usize, state: &Snapshot) -> Call {
    match letter {
        0 => from_peer(SOM | TO | 1, &[1, 0x11]),
        1 => from_peer(0x10 | TO | 1, &[0x12]),
        2 => from_peer(EOM | 0x10 | TO | 1, &[0x13]),
        3 => from_peer(EOM | 0x20 | TO | 1, &[]),
        // With the reserved bits set.
        4 => receive([0xf1, 8, PEER, SOM | EOM | 0x30 | TO | 1, 0x81]),
        5 => from_peer(SOM | EOM | 1, &[2, 0x14]),
        6 => from_peer(SOM | 1, &[3, 0x15]),
        7 => from_peer(EOM | 0x10 | 1, &[0x16]),
        8 => from_peer(SOM | TO | 1, &[]),
        9 => send(TagWish::Fresh, true, 5, None),
        10 => send(TagWish::Owned(1), false, 6, None),
        11 => send(TagWish::Owned(1), true, 7, Some(4)),
        12 => Call::Update(state.now.clock + 1),
        13 => Call::Update(state.now.clock + TIMEOUT),
        14 => Call::Update(state.now.clock + TIMEOUT + 1),
        15 => Call::GetDeferred { source: PEER, tag: OWNED },
        16 => Call::GetDeferred { source: PEER, tag: REPLY },
        17 => Call::GetDeferredByCookie(vec![5]),
        18 => Call::Finish(newest(state)),
        19 => Call::Return(newest(state)),
        20 => Call::SetCookie(newest(state), Some(5)),
        21 => Call::Cancel { source: PEER, tag: 1 },
        22 => Call::SetEid(if state.own == 8 { 20 } else { 8 }),
        23 => Call::Fragment { which: 0, seed: 7, len: 2, room: 5 },
        24 => Call::Fragment { which: 0, seed: 7, len: 2, room: 4 },
        _ => receive([]),
    }
}

fn new() -> Call {
    Call::New { own: 8, mtu: 64, clock: 50, counter: 0, issues: 0 }
}

fn receive<const N: usize>(packet: [u8; N]) -> Call {
    Call::Receive { packet: packet.to_vec(), lent: Lent::Exact }
}

fn from_peer(flags: u8, rest: &[u8]) -> Call {
    Call::Receive { packet: [&[1, 8, PEER, flags], rest].concat(), lent: Lent::Exact }
}

fn send(tag: TagWish, expires: bool, cookie: u64, mtu: Option<usize>) -> Call {
    let send = Send { dest: PEER, typ: 1, tag, expires, ic: false, mtu, cookie: Some(cookie) };
    Call::StartSend { keep: 0, send }
}

fn owned_send(dest: u8, tag: u8) -> Call {
    let tag = TagWish::Owned(tag);
    let send = Send { dest, typ: 1, tag, expires: false, ic: false, mtu: None, cookie: None };
    Call::StartSend { keep: 1, send }
}

/// The handle that went out last and still is, else one that never was.
fn newest(state: &Snapshot) -> Handle {
    let out = state.slots.iter().enumerate().filter_map(|(index, s)| match s.as_ref()?.phase {
        Phase::Done { handle } => Some(Handle { index, issue: handle? }),
        Phase::Collecting { .. } => None,
    });
    out.max_by_key(|h| h.issue).unwrap_or(Handle { index: 0, issue: 1 })
}
