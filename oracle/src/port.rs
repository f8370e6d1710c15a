//! Every public call of the rules, over numbers and byte slices.

pub const SLOTS: usize = 4;
pub const BODY: usize = 1032;
pub const POOL: usize = SLOTS * BODY;
pub const FLOWS: usize = 64;
pub const TIMEOUT: u64 = 6000;

/// The refusals, by their numbers.
#[derive(Debug, Clone, Copy, PartialEq, Eq, PartialOrd, Ord)]
#[repr(u8)]
pub enum Refusal {
    InvalidInput = 1,
    NoSpace = 2,
    BadArgument = 3,
    TagUnavailable = 4,
    Unreachable = 5,
    PoolShort = 6,
}

pub type Cookie = Option<u64>;

#[derive(Debug, Clone, Copy, PartialEq, Eq)]
pub struct Tag {
    pub owner: bool,
    pub value: u8,
}

/// The tag that a send asks for.
#[derive(Debug, Clone, Copy, PartialEq, Eq)]
pub enum TagWish {
    Fresh,
    Owned(u8),
    Unowned(u8),
}

#[derive(Debug, Clone, Copy, PartialEq, Eq)]
pub struct Send {
    pub dest: u8,
    pub typ: u8,
    pub tag: TagWish,
    pub expires: bool,
    pub ic: bool,
    pub mtu: Option<usize>,
    pub cookie: Cookie,
}

#[derive(Debug, Clone, Copy, PartialEq, Eq)]
pub enum Step {
    Packet(usize),
    Complete(Tag, Cookie),
    Refused(Refusal, Cookie),
}

#[derive(Debug, Clone, Copy, PartialEq, Eq)]
pub struct Handle {
    pub index: usize,
    pub issue: u64,
}

#[derive(Debug, Clone, PartialEq, Eq)]
pub struct Message {
    pub source: u8,
    pub dest: u8,
    pub tag: Tag,
    pub typ: u8,
    pub ic: bool,
    pub cookie: Cookie,
    pub body: Vec<u8>,
}

#[derive(Debug, Clone, PartialEq, Eq)]
pub enum Received {
    More,
    Message(Message, Handle),
}

#[derive(Debug, Clone, Copy, PartialEq, Eq, PartialOrd, Ord)]
pub struct Stamp {
    pub clock: u64,
    pub counter: u32,
}

#[derive(Debug, Clone, Copy, PartialEq, Eq, PartialOrd, Ord)]
pub struct FlowView {
    pub peer: u8,
    pub tag: u8,
    pub cookie: Cookie,
    pub expiry: Option<Stamp>,
}

#[derive(Debug, Clone, Copy, PartialEq, Eq)]
pub enum Phase {
    Collecting {
        expect: u8,
    },
    /// With the issue number of the handle that is out.
    Done {
        handle: Option<u64>,
    },
}

#[derive(Debug, Clone, PartialEq, Eq)]
pub struct SlotView {
    pub phase: Phase,
    pub source: u8,
    pub dest: u8,
    pub tag: Tag,
    pub typ: u8,
    pub ic: bool,
    pub cookie: Cookie,
    pub stamp: Stamp,
    pub body: Vec<u8>,
}

/// The whole state.
#[derive(Debug, Clone, PartialEq, Eq)]
pub struct Snapshot {
    pub own: u8,
    pub mtu: usize,
    pub now: Stamp,
    pub planned: u64,
    pub next_tag: u8,
    pub next_seq: u8,
    /// The issue number given last, 0 before the first.
    pub issues: u64,
    /// In the order of peer and tag.
    pub flows: Vec<FlowView>,
    /// None where the slot is empty.
    pub slots: [Option<SlotView>; SLOTS],
}

#[derive(Debug, Clone, Copy, PartialEq, Eq)]
pub struct FragmenterView {
    pub source: u8,
    pub dest: u8,
    pub typ: u8,
    pub ic: bool,
    pub tag: Tag,
    pub cookie: Cookie,
    pub mtu: usize,
    pub sequence: u8,
    pub first: bool,
    pub done: bool,
    pub used: usize,
}

pub trait Port: Sized {
    type Fragmenter;

    fn new(own: u8, mtu: usize, clock: u64) -> Result<Self, Refusal>;
    fn set_eid(&mut self, eid: u8) -> Result<(), Refusal>;
    fn eid(&self) -> u8;
    fn is_local_dest(&self, packet: &[u8]) -> bool;

    fn start_send(&mut self, send: &Send) -> Result<Self::Fragmenter, Refusal>;
    fn fragment(fragmenter: &mut Self::Fragmenter, payload: &[u8], out: &mut [u8]) -> Step;

    /// The time to the next call, and whether anything expired.
    fn update(&mut self, clock: u64) -> Result<(u64, bool), Refusal>;

    fn receive(&mut self, packet: &[u8], pool: &mut [u8]) -> Result<Received, Refusal>;
    fn get_deferred(&mut self, source: u8, tag: Tag) -> Option<Handle>;
    fn get_deferred_bycookie(&mut self, cookies: &[u64]) -> Option<Handle>;
    fn fetch_message(&mut self, handle: Handle, pool: &[u8]) -> Result<Message, Refusal>;
    fn finished_receive(&mut self, handle: Handle) -> Result<(), Refusal>;
    fn return_handle(&mut self, handle: Handle) -> Result<(), Refusal>;
    fn set_cookie(&mut self, handle: Handle, cookie: Cookie) -> Result<(), Refusal>;

    fn cancel_flow(&mut self, source: u8, tag: u8) -> Result<(), Refusal>;
    fn free_tags(&self, peer: u8) -> u8;

    // No calls of the rules: what a comparison needs beside them.

    /// Bodies are read from `pool`, the one lent to every receive.
    fn snapshot(&self, pool: &[u8]) -> Snapshot;
    fn view(fragmenter: &Self::Fragmenter) -> FragmenterView;
    /// As if so many events of this millisecond, and so many handles, had gone before.
    fn preset(&mut self, counter: u32, issues: u64);
}
