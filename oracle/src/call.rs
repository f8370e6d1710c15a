//! A call with all its arguments, and its answer, apart from any port.

use crate::port::*;

/// Fragmenters kept at a time.
pub const KEPT: usize = 4;

/// The pool that a call is lent.
#[derive(Debug, Clone, Copy, PartialEq, Eq)]
pub enum Lent {
    /// The board's pool, 4,128 bytes.
    Exact,
    /// The same with a tail behind it.
    Long,
    /// Only so many of its bytes.
    Short(usize),
    /// A second pool.
    Other,
}

#[derive(Debug, Clone, PartialEq, Eq)]
pub enum Call {
    /// A new stack, as if `counter` events and `issues` handles had gone before.
    New {
        own: u8,
        mtu: usize,
        clock: u64,
        counter: u32,
        issues: u64,
    },
    SetEid(u8),
    Eid,
    IsLocalDest(Vec<u8>),
    /// The fragmenter is kept at place `keep`.
    StartSend {
        keep: usize,
        send: Send,
    },
    /// The payload is `payload(seed, len)`, the packet buffer has `room` bytes.
    Fragment {
        which: usize,
        seed: u8,
        len: usize,
        room: usize,
    },
    Update(u64),
    Receive {
        packet: Vec<u8>,
        lent: Lent,
    },
    GetDeferred {
        source: u8,
        tag: Tag,
    },
    GetDeferredByCookie(Vec<u64>),
    Fetch {
        handle: Handle,
        lent: Lent,
    },
    Finish(Handle),
    Return(Handle),
    SetCookie(Handle, Cookie),
    Cancel {
        source: u8,
        tag: u8,
    },
    FreeTags(u8),
}

#[derive(Debug, Clone, PartialEq, Eq)]
pub enum Answer {
    /// No stack or no fragmenter to call.
    Nothing,
    Plain(Result<(), Refusal>),
    Number(u8),
    Local(bool),
    Started(Result<FragmenterView, Refusal>),
    /// With the whole packet buffer, its tail, and the fragmenter afterwards.
    Stepped(Step, Vec<u8>, FragmenterView),
    Updated(Result<(u64, bool), Refusal>),
    Received(Result<Received, Refusal>),
    Deferred(Option<Handle>),
    Fetched(Result<Message, Refusal>),
}

pub fn payload(seed: u8, len: usize) -> Vec<u8> {
    (0..len).map(|i| seed.wrapping_add((i * 7 + i / 256) as u8)).collect()
}

impl Call {
    pub fn name(&self) -> &'static str {
        match self {
            Call::New { .. } => "new",
            Call::SetEid(_) => "set_eid",
            Call::Eid => "eid",
            Call::IsLocalDest(_) => "is_local_dest",
            Call::StartSend { .. } => "start_send",
            Call::Fragment { .. } => "fragment",
            Call::Update(_) => "update",
            Call::Receive { .. } => "receive",
            Call::GetDeferred { .. } => "get_deferred",
            Call::GetDeferredByCookie(_) => "get_deferred_bycookie",
            Call::Fetch { .. } => "fetch_message",
            Call::Finish(_) => "finished_receive",
            Call::Return(_) => "return_handle",
            Call::SetCookie(..) => "set_cookie",
            Call::Cancel { .. } => "cancel_flow",
            Call::FreeTags(_) => "free_tags",
        }
    }

    pub fn handle(&self) -> Option<Handle> {
        match *self {
            Call::Fetch { handle, .. } | Call::Finish(handle) | Call::Return(handle) => Some(handle),
            Call::SetCookie(handle, _) => Some(handle),
            _ => None,
        }
    }
}

impl Answer {
    pub fn refusal(&self) -> Option<Refusal> {
        match self {
            Answer::Plain(r) => r.err(),
            Answer::Started(r) => r.err(),
            Answer::Updated(r) => r.err(),
            Answer::Received(r) => r.as_ref().err().copied(),
            Answer::Fetched(r) => r.as_ref().err().copied(),
            Answer::Stepped(Step::Refused(r, _), ..) => Some(*r),
            _ => None,
        }
    }

    pub fn kind(&self) -> &'static str {
        if let Some(refusal) = self.refusal() {
            return refusal.name();
        }
        match self {
            Answer::Nothing => "nothing to call",
            Answer::Local(true) => "yes",
            Answer::Local(false) => "no",
            Answer::Stepped(Step::Packet(_), ..) => "packet",
            Answer::Stepped(Step::Complete(..), ..) => "complete",
            Answer::Updated(Ok((_, true))) => "something expired",
            Answer::Updated(Ok((_, false))) => "nothing expired",
            Answer::Received(Ok(Received::More)) => "more",
            Answer::Received(Ok(Received::Message(..))) => "message",
            Answer::Deferred(None) => "none",
            Answer::Deferred(Some(_)) => "handle",
            _ => "ok",
        }
    }
}

impl Refusal {
    pub fn name(self) -> &'static str {
        match self {
            Refusal::InvalidInput => "InvalidInput",
            Refusal::NoSpace => "NoSpace",
            Refusal::BadArgument => "BadArgument",
            Refusal::TagUnavailable => "TagUnavailable",
            Refusal::Unreachable => "Unreachable",
            Refusal::PoolShort => "PoolShort",
        }
    }
}
