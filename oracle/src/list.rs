//! A stored list of calls with the answers expected: records of bytes, one after another up to the end of the file.
//!
//! A record is a request and its outcome. A request is a byte (the operation), a byte n and n words of 8 bytes, two bytes
//! m and m bytes; an outcome is the same with the answer's number as its first byte. Numbers have their lowest byte first.

use crate::call::{Call, Lent};
use crate::harness::TAIL;
use crate::port::*;
use crate::rows::{send_of, send_row};
use std::fmt;

pub const NEW: u8 = 1;
pub const SET_EID: u8 = 2;
pub const EID: u8 = 3;
pub const IS_LOCAL_DEST: u8 = 4;
pub const START_SEND: u8 = 5;
/// The payload lent to later steps.
pub const PAYLOAD: u8 = 6;
pub const FRAGMENT: u8 = 7;
pub const UPDATE: u8 = 8;
pub const RECEIVE: u8 = 9;
pub const GET_DEFERRED: u8 = 10;
pub const GET_DEFERRED_BYCOOKIE: u8 = 11;
pub const FETCH: u8 = 12;
pub const FINISH: u8 = 13;
pub const RETURN: u8 = 14;
pub const SET_COOKIE: u8 = 15;
pub const CANCEL: u8 = 16;
pub const FREE_TAGS: u8 = 17;
/// Bytes of a pool.
pub const POOL_BYTES: u8 = 18;

const NAMES: [&str; 19] = [
    "",
    "new",
    "set_eid",
    "eid",
    "is_local_dest",
    "start_send",
    "payload",
    "fragment",
    "update",
    "receive",
    "get_deferred",
    "get_deferred_bycookie",
    "fetch_message",
    "finished_receive",
    "return_handle",
    "set_cookie",
    "cancel_flow",
    "free_tags",
    "pool",
];

pub const MOST_WORDS: usize = 16;
pub const MOST_BYTES: usize = 2048;

/// A request's operation or an outcome's number, with words and bytes.
#[derive(Debug, Clone, Default, PartialEq, Eq)]
pub struct Part {
    pub lead: u8,
    pub words: Vec<u64>,
    pub bytes: Vec<u8>,
}

#[derive(Debug, Clone, PartialEq, Eq)]
pub struct Record {
    pub request: Part,
    pub outcome: Part,
}

impl Part {
    pub fn new(lead: u8, words: &[u64], bytes: &[u8]) -> Self {
        assert!(words.len() <= MOST_WORDS && bytes.len() <= MOST_BYTES, "too long for a record");
        Self { lead, words: words.to_vec(), bytes: bytes.to_vec() }
    }

    fn write(&self, to: &mut Vec<u8>) {
        to.extend([self.lead, self.words.len() as u8]);
        to.extend(self.words.iter().flat_map(|w| w.to_le_bytes()));
        to.extend((self.bytes.len() as u16).to_le_bytes());
        to.extend(&self.bytes);
    }

    fn read(from: &mut &[u8]) -> Option<Self> {
        let [lead, count] = *take(from, 2)? else { return None };
        let words = take(from, 8 * usize::from(count))?;
        let words = words.chunks_exact(8).map(|w| u64::from_le_bytes(w.try_into().expect("8 bytes"))).collect();
        let [low, high] = *take(from, 2)? else { return None };
        let bytes = take(from, u16::from_le_bytes([low, high]).into())?.to_vec();
        Some(Self { lead, words, bytes })
    }
}

fn take<'b>(from: &mut &'b [u8], count: usize) -> Option<&'b [u8]> {
    let (taken, rest) = from.split_at_checked(count)?;
    *from = rest;
    Some(taken)
}

pub fn write(records: &[Record]) -> Vec<u8> {
    let mut bytes = Vec::new();
    for record in records {
        record.request.write(&mut bytes);
        record.outcome.write(&mut bytes);
    }
    bytes
}

/// None where the bytes are no list.
pub fn read(mut bytes: &[u8]) -> Option<Vec<Record>> {
    let mut records = Vec::new();
    while !bytes.is_empty() {
        records.push(Record { request: Part::read(&mut bytes)?, outcome: Part::read(&mut bytes)? });
    }
    Some(records)
}

// Calls as requests

fn lent_words(lent: Lent) -> [u64; 2] {
    match lent {
        Lent::Exact => [0, POOL as u64],
        Lent::Long => [0, (POOL + TAIL) as u64],
        Lent::Short(room) => [0, room as u64],
        Lent::Other => [1, (POOL + TAIL) as u64],
    }
}

fn lent_of(pool: u64, room: u64) -> Lent {
    match (pool, room as usize) {
        (0, POOL) => Lent::Exact,
        (0, room) if room < POOL => Lent::Short(room),
        (0, room) if room == POOL + TAIL => Lent::Long,
        (1, room) if room == POOL + TAIL => Lent::Other,
        _ => panic!("no such pool: {pool} with {room} bytes"),
    }
}

/// The request that makes the call. A step's payload is the one lent last.
pub fn request(call: &Call) -> Part {
    let words = |lead, words: &[u64]| Part::new(lead, words, &[]);
    let handled = |lead, h: &Handle| Part::new(lead, &[h.index as u64, h.issue], &[]);
    match call {
        Call::New { own, mtu, clock, counter: 0, issues: 0 } => words(NEW, &[(*own).into(), *mtu as u64, *clock]),
        Call::New { .. } => panic!("a list has no counters set before"),
        Call::SetEid(eid) => words(SET_EID, &[(*eid).into()]),
        Call::Eid => words(EID, &[]),
        Call::IsLocalDest(packet) => Part::new(IS_LOCAL_DEST, &[], packet),
        Call::StartSend { send, .. } => words(START_SEND, &send_row(send)),
        Call::Fragment { room, .. } => words(FRAGMENT, &[*room as u64]),
        Call::Update(clock) => words(UPDATE, &[*clock]),
        Call::Receive { packet, lent } => Part::new(RECEIVE, &lent_words(*lent), packet),
        Call::GetDeferred { source, tag } => {
            words(GET_DEFERRED, &[(*source).into(), tag.owner.into(), tag.value.into()])
        }
        Call::GetDeferredByCookie(list) => words(GET_DEFERRED_BYCOOKIE, list),
        Call::Fetch { handle: h, lent } => {
            let [pool, room] = lent_words(*lent);
            words(FETCH, &[pool, room, h.index as u64, h.issue])
        }
        Call::Finish(handle) => handled(FINISH, handle),
        Call::Return(handle) => handled(RETURN, handle),
        Call::SetCookie(h, cookie) => {
            words(SET_COOKIE, &[h.index as u64, h.issue, cookie.is_some().into(), cookie.unwrap_or(0)])
        }
        Call::Cancel { source, tag } => words(CANCEL, &[(*source).into(), (*tag).into()]),
        Call::FreeTags(peer) => words(FREE_TAGS, &[(*peer).into()]),
    }
}

/// The call that a request makes; none for a payload, a step and a look at a pool.
pub fn call(request: &Part) -> Option<Call> {
    let w = &request.words[..];
    let byte = |at: usize| u8::try_from(w[at]).expect("a byte");
    let handle = |at: usize| Handle { index: w[at] as usize, issue: w[at + 1] };
    Some(match request.lead {
        NEW => Call::New { own: byte(0), mtu: w[1] as usize, clock: w[2], counter: 0, issues: 0 },
        SET_EID => Call::SetEid(byte(0)),
        EID => Call::Eid,
        IS_LOCAL_DEST => Call::IsLocalDest(request.bytes.clone()),
        START_SEND => Call::StartSend { keep: 0, send: send_of(w.try_into().expect("a send row")) },
        UPDATE => Call::Update(w[0]),
        RECEIVE => Call::Receive { packet: request.bytes.clone(), lent: lent_of(w[0], w[1]) },
        GET_DEFERRED => Call::GetDeferred { source: byte(0), tag: Tag { owner: w[1] == 1, value: byte(2) } },
        GET_DEFERRED_BYCOOKIE => Call::GetDeferredByCookie(w.to_vec()),
        FETCH => Call::Fetch { handle: handle(2), lent: lent_of(w[0], w[1]) },
        FINISH => Call::Finish(handle(0)),
        RETURN => Call::Return(handle(0)),
        SET_COOKIE => Call::SetCookie(handle(0), (w[2] == 1).then_some(w[3])),
        CANCEL => Call::Cancel { source: byte(0), tag: byte(1) },
        FREE_TAGS => Call::FreeTags(byte(0)),
        PAYLOAD | FRAGMENT | POOL_BYTES => return None,
        other => panic!("no operation: {other}"),
    })
}

// Readable

struct Bytes<'b>(&'b [u8]);

impl fmt::Display for Bytes<'_> {
    fn fmt(&self, f: &mut fmt::Formatter<'_>) -> fmt::Result {
        const SHOWN: usize = 24;
        for byte in self.0.iter().take(SHOWN) {
            write!(f, " {byte:02x}")?;
        }
        if self.0.len() > SHOWN {
            write!(f, " .. ({} bytes)", self.0.len())?;
        }
        Ok(())
    }
}

impl fmt::Display for Part {
    fn fmt(&self, f: &mut fmt::Formatter<'_>) -> fmt::Result {
        if !self.words.is_empty() {
            write!(f, " {:?}", self.words)?;
        }
        if !self.bytes.is_empty() {
            write!(f, " |{}", Bytes(&self.bytes))?;
        }
        Ok(())
    }
}

impl fmt::Display for Record {
    fn fmt(&self, f: &mut fmt::Formatter<'_>) -> fmt::Result {
        let name = NAMES.get(usize::from(self.request.lead)).unwrap_or(&"?");
        write!(f, "{name}{} -> {}{}", self.request, self.outcome.lead, self.outcome)
    }
}
