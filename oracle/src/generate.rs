//! Random calls, chosen with an eye on the state so that rare situations are common.

use crate::call::{Call, Lent, KEPT};
use crate::port::*;
use crate::rng::Rng;

/// What an episode favours.
struct Style {
    /// By kind of call, in the order of `Generator::next`.
    weights: [usize; 13],
    /// Peers are 9 and up, so many.
    peers: usize,
    tags: usize,
    long_bodies: bool,
    /// One flow in so many expires.
    expires: usize,
    /// Replies come in beside each other, and their flows go and come back in the meantime.
    replies: bool,
}

const STYLES: [Style; 8] = [
    // A little of everything.
    Style {
        weights: [30, 12, 10, 8, 5, 4, 4, 6, 5, 3, 3, 2, 4],
        peers: 3,
        tags: 3,
        long_bodies: false,
        expires: 2,
        replies: false,
    },
    // Messages are kept, so the slots fill up.
    Style {
        weights: [40, 10, 2, 6, 5, 4, 3, 2, 5, 3, 3, 3, 2],
        peers: 2,
        tags: 2,
        long_bodies: false,
        expires: 2,
        replies: false,
    },
    // The flow table fills up.
    Style {
        weights: [8, 70, 6, 2, 1, 1, 1, 2, 1, 1, 2, 1, 4],
        peers: 12,
        tags: 8,
        long_bodies: false,
        expires: 8,
        replies: false,
    },
    // The tags of one peer run out.
    Style {
        weights: [20, 40, 6, 5, 3, 3, 2, 4, 3, 2, 4, 1, 6],
        peers: 1,
        tags: 8,
        long_bodies: false,
        expires: 2,
        replies: false,
    },
    // Long messages out and in.
    Style {
        weights: [45, 8, 25, 3, 2, 2, 4, 9, 2, 1, 1, 1, 1],
        peers: 2,
        tags: 2,
        long_bodies: true,
        expires: 2,
        replies: false,
    },
    // The clock moves much.
    Style {
        weights: [25, 14, 2, 32, 6, 4, 2, 3, 7, 2, 2, 1, 1],
        peers: 2,
        tags: 3,
        long_bodies: false,
        expires: 1,
        replies: false,
    },
    // Messages of one peer and tag are given back and asked for again.
    Style {
        weights: [40, 14, 1, 4, 12, 8, 2, 2, 14, 5, 3, 2, 1],
        peers: 1,
        tags: 1,
        long_bodies: false,
        expires: 2,
        replies: false,
    },
    // Replies of one peer, in several slots at a time.
    Style {
        weights: [50, 14, 1, 6, 4, 3, 2, 8, 9, 2, 6, 2, 1],
        peers: 1,
        tags: 2,
        long_bodies: false,
        expires: 3,
        replies: true,
    },
];

const STACK_MTUS: [usize; 10] = [5, 6, 9, 64, 64, 255, 255, 256, 300, usize::MAX];
const SEND_MTUS: [usize; 10] = [0, 4, 5, 6, 9, 64, 64, 255, 256, usize::MAX];
const ROOMS: [usize; 8] = [0, 3, 4, 4, 5, 6, 9, 64];
const OWN_EIDS: [u8; 6] = [8, 8, 8, 0, 3, 255];
const NEW_EIDS: [u8; 8] = [8, 8, 20, 254, 0, 7, 9, 255];
const LONG_BODIES: [usize; 9] = [0, 1, 60, 250, 500, 516, 1031, 1032, 1033];

/// A packet before it is bytes.
#[derive(Clone, Copy)]
struct Packet {
    dest: u8,
    source: u8,
    tag: Tag,
    som: bool,
    eom: bool,
    sequence: u8,
}

impl Packet {
    fn bytes(self, kind: u8, body: &[u8]) -> Vec<u8> {
        let flags = u8::from(self.som) << 7
            | u8::from(self.eom) << 6
            | self.sequence << 4
            | u8::from(self.tag.owner) << 3
            | self.tag.value;
        let mut bytes = vec![1, self.dest, self.source, flags];
        bytes.extend(self.som.then_some(kind));
        bytes.extend_from_slice(body);
        bytes
    }
}

pub struct Generator {
    rng: Rng,
    style: &'static Style,
    everything: bool,
    /// For a stored list: one fragmenter, payloads of at most 2,048 bytes, counters from 0.
    plain: bool,
    /// Seed and length of the payload that each kept fragmenter cuts.
    payloads: [(u8, usize); KEPT],
}

impl Generator {
    /// With `everything`, calls outside the domain of equality as well.
    pub fn new(seed: u64, everything: bool) -> Self {
        let mut rng = Rng::new(seed);
        let style = &STYLES[rng.below(STYLES.len())];
        Self { rng, style, everything, plain: false, payloads: [(0, 0); KEPT] }
    }

    /// Calls that a stored list can hold.
    pub fn plain(seed: u64, everything: bool) -> Self {
        Self { plain: true, ..Self::new(seed, everything) }
    }

    /// How many calls the episode has.
    pub fn length(&mut self) -> usize {
        100 + self.rng.below(400)
    }

    pub fn first(&mut self) -> Call {
        let clock = match self.rng.below(8) {
            0 => self.rng.draw() >> 1,
            1 => self.last_clock() - self.rng.draw() % 12_000,
            2 => 50,
            _ => 0,
        };
        let preset = self.rng.one_in(6) && !self.plain;
        let left = if self.odd(2) { 0 } else { self.rng.byte() % 32 };
        Call::New {
            own: self.rng.pick(&OWN_EIDS),
            mtu: if self.odd(12) { self.rng.below(5) } else { self.rng.pick(&STACK_MTUS) },
            clock,
            counter: if preset { u32::MAX - 1 - u32::from(left) } else { 0 },
            issues: if preset { u64::MAX - u64::from(left) } else { 0 },
        }
    }

    pub fn next(&mut self, state: &Snapshot, fragmenters: &[Option<FragmenterView>; KEPT]) -> Call {
        match self.rng.weighted(&self.style.weights) {
            0 => self.receive(state),
            1 => self.start_send(state),
            2 => self.fragment(fragmenters),
            3 => Call::Update(self.clock(state)),
            4 => self.get_deferred(state),
            5 => self.get_deferred_bycookie(state),
            6 => self.with_handle(state, |handle, g| Call::Fetch { handle, lent: g.lent() }),
            7 => self.with_handle(state, |handle, _| Call::Finish(handle)),
            8 => self.with_handle(state, |handle, _| Call::Return(handle)),
            9 => self.with_handle(state, |handle, g| Call::SetCookie(handle, g.cookie())),
            10 => self.cancel(state),
            11 => Call::SetEid(self.rng.pick(&NEW_EIDS)),
            _ => self.question(state),
        }
    }

    /// Once in `n` where calls outside the domain are wanted.
    fn odd(&mut self, n: usize) -> bool {
        self.everything && self.rng.one_in(n)
    }

    fn kept(&self) -> usize {
        if self.plain {
            1
        } else {
            KEPT
        }
    }

    fn last_clock(&self) -> u64 {
        if self.everything {
            u64::MAX
        } else {
            u64::MAX - 100
        }
    }

    fn peer(&mut self) -> u8 {
        match self.rng.below(60) {
            0 => 0,
            1 => 255,
            2 => 8,
            n => 9 + (n % self.style.peers) as u8,
        }
    }

    fn tag(&mut self) -> u8 {
        if self.odd(16) {
            return self.rng.pick(&[8, 9, 16, 255]);
        }
        self.rng.below(self.style.tags) as u8
    }

    fn cookie(&mut self) -> Cookie {
        match self.rng.below(6) {
            0 => None,
            1 => Some(u64::MAX),
            n => Some(n as u64),
        }
    }

    fn lent(&mut self) -> Lent {
        if self.odd(8) {
            let short = self.rng.pick(&[0, 1, 1032, POOL - 1]);
            return self.rng.pick(&[Lent::Short(short), Lent::Other]);
        }
        self.rng.pick(&[Lent::Exact, Lent::Exact, Lent::Exact, Lent::Long])
    }

    // Receive

    fn receive(&mut self, state: &Snapshot) -> Call {
        let collecting = |s: &&SlotView| matches!(s.phase, Phase::Collecting { .. });
        let slot = self.rng.pick_of(state.slots.iter().flatten().filter(collecting));
        let packet = match slot {
            Some(slot) if !self.rng.one_in(3) => self.for_slot(slot),
            _ => self.opening(state),
        };
        let full = state.slots.iter().all(Option::is_some);
        let packet = if self.rng.one_in(if full { 8 } else { 16 }) { self.spoilt(packet) } else { packet };
        Call::Receive { packet, lent: self.lent() }
    }

    /// A packet of the key that the slot collects: mostly in turn, else out of turn or a restart.
    fn for_slot(&mut self, slot: &SlotView) -> Vec<u8> {
        let Phase::Collecting { expect } = slot.phase else { unreachable!("a collecting slot") };
        let out_of_turn = self.rng.one_in(8);
        let packet = Packet {
            dest: slot.dest,
            source: slot.source,
            tag: slot.tag,
            som: self.rng.one_in(if self.style.replies { 4 } else { 8 }),
            eom: self.rng.one_in(4),
            sequence: if out_of_turn { self.rng.byte() % 4 } else { expect },
        };
        let room = BODY - slot.body.len();
        let len = match self.rng.below(24) {
            0 => room,
            1 => room + 1,
            _ => self.body_len(),
        };
        let body = self.rng.bytes(len);
        let mut bytes = packet.bytes(self.rng.byte(), &body);
        if packet.som && self.rng.one_in(6) {
            bytes.truncate(4);
        }
        bytes
    }

    /// A packet that may open a slot: a request, or a reply with or without a flow.
    fn opening(&mut self, state: &Snapshot) -> Vec<u8> {
        let flow = self.rng.pick_of(state.flows.iter());
        let slot = self.rng.pick_of(state.slots.iter().flatten());
        let dest = self.dest(state);
        let kind = if self.style.replies { self.rng.pick(&[0, 0, 3, 3, 4, 5]) } else { self.rng.below(8) };
        let (dest, source, tag) = match (kind, flow, slot) {
            (0..=2, Some(f), _) => (dest, f.peer, Tag { owner: false, value: f.tag }),
            // Beside a message of that peer and tag, maybe to the other destination.
            (3, _, Some(s)) => (self.rng.pick(&[0, state.own]), s.source, s.tag),
            (4, ..) => (dest, self.peer(), Tag { owner: false, value: self.tag() % 8 }),
            _ => (dest, self.peer(), Tag { owner: true, value: self.tag() % 8 }),
        };
        let packet = Packet {
            dest,
            source,
            tag,
            som: !self.rng.one_in(12),
            eom: self.rng.one_in(2),
            sequence: self.rng.byte() % 4,
        };
        let len = self.body_len();
        let body = self.rng.bytes(len);
        packet.bytes(self.rng.byte(), &body)
    }

    fn dest(&mut self, state: &Snapshot) -> u8 {
        match self.rng.below(16) {
            0 | 1 => 0,
            2 => 7,
            3 => self.rng.pick(&NEW_EIDS),
            _ => state.own,
        }
    }

    fn body_len(&mut self) -> usize {
        if self.style.long_bodies {
            self.rng.pick(&LONG_BODIES)
        } else {
            self.rng.below(5)
        }
    }

    /// The packet cut short, or with one of its header bytes changed.
    fn spoilt(&mut self, mut packet: Vec<u8>) -> Vec<u8> {
        match self.rng.below(6) {
            0 => packet.truncate(self.rng.below(5)),
            1 => packet.truncate(4),
            2 => packet[0] = 2,
            3 => packet[0] = self.rng.byte(),
            4 => packet[0] |= 0xf0,
            _ => packet[2] = 255,
        }
        packet
    }

    // Send

    fn start_send(&mut self, state: &Snapshot) -> Call {
        let keep = self.rng.below(self.kept());
        let len = match self.rng.below(8) {
            0 => 0,
            1 => 1032,
            2 => self.rng.below(if self.plain { 2000 } else { 3000 }),
            _ => self.rng.below(40),
        };
        self.payloads[keep] = (self.rng.byte(), len);
        let flow = self.rng.pick_of(state.flows.iter());
        let reply = self.rng.pick_of(state.slots.iter().flatten().filter(|s| !s.tag.owner));
        let kind = if self.style.replies { self.rng.pick(&[0, 1, 1, 1, 2, 4, 5]) } else { self.rng.below(10) };
        let (dest, tag) = match (kind, flow, reply) {
            (0, Some(f), _) => (f.peer, TagWish::Owned(f.tag)),
            (1, _, Some(s)) => (s.source, TagWish::Owned(s.tag.value)),
            (1..=3, ..) => (self.peer(), TagWish::Owned(self.tag())),
            (4, ..) => (self.peer(), TagWish::Unowned(self.tag())),
            _ => (self.peer(), TagWish::Fresh),
        };
        let send = Send {
            dest,
            typ: if self.odd(12) { self.rng.byte() | 0x80 } else { self.rng.byte() & 0x7f },
            tag,
            expires: self.rng.one_in(self.style.expires),
            ic: self.rng.one_in(2),
            mtu: if self.rng.one_in(2) { None } else { Some(self.rng.pick(&SEND_MTUS)) },
            cookie: self.cookie(),
        };
        Call::StartSend { keep, send }
    }

    fn fragment(&mut self, fragmenters: &[Option<FragmenterView>; KEPT]) -> Call {
        let busy = |i: &usize| fragmenters[*i].is_some_and(|f| !f.done);
        let unfinished = if self.rng.one_in(6) { None } else { self.rng.pick_of((0..KEPT).filter(busy)) };
        let which = unfinished.unwrap_or_else(|| self.rng.below(self.kept()));
        let (seed, kept_len) = self.payloads[which];
        let used = fragmenters[which].map_or(0, |f| f.used);
        let len = match self.rng.below(24) {
            0 => used.saturating_sub(1),
            1 => used,
            2 => kept_len + 1,
            _ => kept_len,
        };
        let few = if self.style.long_bodies { 8 } else { 3 };
        let room = if self.rng.one_in(few) { self.rng.pick(&ROOMS) } else { 260 };
        Call::Fragment { which, seed, len, room }
    }

    // The clock

    fn clock(&mut self, state: &Snapshot) -> u64 {
        let now = state.now.clock;
        let stamps = state.slots.iter().flatten().map(|s| s.stamp).chain(state.flows.iter().filter_map(|f| f.expiry));
        let stamp = self.rng.pick_of(stamps);
        let clock = match (self.rng.below(16), stamp) {
            (0, _) => now,
            (1, _) => now.saturating_sub(1 + self.rng.draw() % 50),
            (2, _) => state.planned.saturating_sub(1),
            (3, _) => state.planned,
            (4, _) => state.planned.saturating_add(1),
            (5, _) if self.rng.one_in(8) => self.last_clock() - self.rng.draw() % 300,
            (6..=9, Some(s)) => s.clock.saturating_add(TIMEOUT - 1 + self.rng.draw() % 3),
            (10, _) => now.saturating_add(7000),
            _ => now.saturating_add(self.rng.draw() % 120),
        };
        clock.min(self.last_clock())
    }

    // Handles and flows

    fn with_handle(&mut self, state: &Snapshot, call: impl Fn(Handle, &mut Self) -> Call) -> Call {
        let genuine = state.slots.iter().enumerate().filter_map(|(index, s)| match s.as_ref()?.phase {
            Phase::Done { handle } => Some(Handle { index, issue: handle? }),
            Phase::Collecting { .. } => None,
        });
        match self.rng.pick_of(genuine) {
            Some(handle) if !self.odd(3) => call(handle, self),
            _ if self.everything => call(self.stale(state), self),
            _ => self.receive(state),
        }
    }

    fn stale(&mut self, state: &Snapshot) -> Handle {
        let last = state.issues;
        let issue = match self.rng.below(6) {
            0 => 0,
            1 => u64::MAX,
            2 => last.wrapping_add(1),
            _ => last.saturating_sub(self.rng.draw() % 6),
        };
        let index = if self.rng.one_in(6) { self.rng.pick(&[4, 5, 255, usize::MAX]) } else { self.rng.below(SLOTS) };
        Handle { index, issue }
    }

    fn get_deferred(&mut self, state: &Snapshot) -> Call {
        let slot = self.rng.pick_of(state.slots.iter().flatten());
        match slot {
            Some(s) if !self.rng.one_in(5) => Call::GetDeferred { source: s.source, tag: s.tag },
            _ => {
                let tag = Tag { owner: self.rng.one_in(2), value: self.tag() };
                Call::GetDeferred { source: self.peer(), tag }
            }
        }
    }

    fn get_deferred_bycookie(&mut self, state: &Snapshot) -> Call {
        let slot = self.rng.pick_of(state.slots.iter().flatten());
        let mut list: Vec<u64> = (0..self.rng.below(4)).filter_map(|_| self.cookie()).collect();
        if !self.rng.one_in(3) {
            list.extend(slot.and_then(|s| s.cookie));
        }
        Call::GetDeferredByCookie(list)
    }

    fn cancel(&mut self, state: &Snapshot) -> Call {
        let flow = self.rng.pick_of(state.flows.iter().map(|f| (f.peer, f.tag)));
        let replies = state.slots.iter().flatten().filter(|s| !s.tag.owner).map(|s| (s.source, s.tag.value));
        let reply = self.rng.pick_of(replies);
        let (source, tag) = match (self.rng.below(6), flow, reply) {
            (0..=2, _, Some(reply)) => reply,
            (3 | 4, Some(flow), _) => flow,
            _ => (self.peer(), self.tag()),
        };
        Call::Cancel { source, tag }
    }

    fn question(&mut self, state: &Snapshot) -> Call {
        match self.rng.below(3) {
            0 => Call::Eid,
            1 => Call::FreeTags(self.peer()),
            _ => {
                let packet = self.opening(state);
                let spoil = self.rng.one_in(2);
                Call::IsLocalDest(if spoil { self.spoilt(packet) } else { packet })
            }
        }
    }
}
