//! The rules' prose as a program: every rule, those marked (added) as well. Written for reading, not for speed.

use crate::port::*;

const INTERVAL: u64 = 100;
const SMALLEST_MTU: usize = 5;
const LARGEST_MTU: usize = 255;
const LARGEST_TYPE: u8 = 127;
const LARGEST_TAG: u8 = 7;
const NULL: u8 = 0;
const ANY: u8 = 255;

type Answer<T> = Result<T, Refusal>;

// The packet on the wire

#[derive(Clone, Copy, PartialEq, Eq)]
struct Key {
    source: u8,
    dest: u8,
    tag: Tag,
}

struct Header {
    key: Key,
    som: bool,
    eom: bool,
    sequence: u8,
}

fn read_header(packet: &[u8]) -> Option<Header> {
    let [lead, dest, source, flags, ..] = *packet else { return None };
    let version = lead % 16;
    (version == 1).then_some(Header {
        key: Key { source, dest, tag: Tag { owner: flags / 8 % 2 == 1, value: flags % 8 } },
        som: flags / 128 == 1,
        eom: flags / 64 % 2 == 1,
        sequence: flags / 16 % 4,
    })
}

fn header_bytes(h: &Header) -> [u8; 4] {
    let flags = 128 * u8::from(h.som)
        + 64 * u8::from(h.eom)
        + 16 * h.sequence
        + 8 * u8::from(h.key.tag.owner)
        + h.key.tag.value;
    [1, h.key.dest, h.key.source, flags]
}

// Event stamp

impl Stamp {
    /// Counts one event and gives its stamp.
    fn event(&mut self) -> Stamp {
        self.counter = self.counter.saturating_add(1);
        *self
    }

    fn take_clock(&mut self, clock: u64) {
        if clock > self.clock {
            *self = Stamp { clock, counter: 0 };
        }
    }

    /// What is left of the timeout, or none when expired.
    fn remaining(&self, now: u64) -> Option<u64> {
        let age = now.checked_sub(self.clock)?;
        TIMEOUT.checked_sub(age)
    }
}

// Fragmenter

/// Its state is just what the rules list.
pub type Fragmenter = FragmenterView;

fn step(f: &mut Fragmenter, payload: &[u8], out: &mut [u8]) -> Step {
    if f.done {
        return Step::Complete(f.tag, f.cookie);
    }
    let lead = if f.first { 5 } else { 4 };
    if out.len() < lead {
        return Step::Refused(Refusal::NoSpace, f.cookie);
    }
    if payload.len() < f.used {
        return Step::Refused(Refusal::InvalidInput, f.cookie);
    }
    let room = out.len().min(f.mtu);
    let taken = (payload.len() - f.used).min(room - lead);
    let body = &payload[f.used..f.used + taken];
    f.used += taken;
    f.done = f.used == payload.len();

    let key = Key { source: f.source, dest: f.dest, tag: f.tag };
    let header = Header { key, som: f.first, eom: f.done, sequence: f.sequence };
    let mut packet = header_bytes(&header).to_vec();
    if f.first {
        packet.push(128 * u8::from(f.ic) + f.typ);
    }
    packet.extend_from_slice(body);
    out[..packet.len()].copy_from_slice(&packet);

    f.first = false;
    f.sequence = (f.sequence + 1) % 4;
    Step::Packet(packet.len())
}

// Slots

#[derive(Clone)]
struct Slot {
    phase: Phase,
    key: Key,
    typ: u8,
    ic: bool,
    cookie: Cookie,
    stamp: Stamp,
    length: usize,
}

impl Slot {
    fn opened(key: Key, cookie: Cookie, stamp: Stamp) -> Slot {
        Slot { phase: Phase::Collecting { expect: 0 }, key, typ: 0, ic: false, cookie, stamp, length: 0 }
    }

    fn collects(&self, key: Key) -> bool {
        matches!(self.phase, Phase::Collecting { .. }) && self.key == key
    }

    fn handle(&self) -> Option<u64> {
        match self.phase {
            Phase::Done { handle } => handle,
            Phase::Collecting { .. } => None,
        }
    }

    fn is_deferred(&self) -> bool {
        self.phase == Phase::Done { handle: None }
    }

    fn body<'p>(&self, index: usize, pool: &'p [u8]) -> &'p [u8] {
        &pool[BODY * index..][..self.length]
    }

    fn message(&self, index: usize, pool: &[u8]) -> Message {
        Message {
            source: self.key.source,
            dest: self.key.dest,
            tag: self.key.tag,
            typ: self.typ,
            ic: self.ic,
            cookie: self.cookie,
            body: self.body(index, pool).to_vec(),
        }
    }

    /// Rules 45 to 50 of receive; tells whether the message is complete. On a refusal the caller frees the slot.
    fn take(&mut self, header: &Header, packet: &[u8], at: usize, event: Stamp, pool: &mut [u8]) -> Answer<bool> {
        if header.som {
            let kind = *packet.get(4).ok_or(Refusal::InvalidInput)?;
            self.typ = kind % 128;
            self.ic = kind / 128 == 1;
            self.phase = Phase::Collecting { expect: header.sequence };
            self.length = 0;
            self.stamp = event;
        }
        if self.phase != (Phase::Collecting { expect: header.sequence }) {
            return Err(Refusal::InvalidInput);
        }
        let body = &packet[if header.som { 5 } else { 4 }..];
        if self.length + body.len() > BODY {
            return Err(Refusal::NoSpace);
        }
        pool[BODY * at + self.length..][..body.len()].copy_from_slice(body);
        self.length += body.len();
        self.phase = Phase::Collecting { expect: (header.sequence + 1) % 4 };
        if header.eom {
            self.phase = Phase::Done { handle: None };
            self.stamp = event;
        }
        Ok(header.eom)
    }
}

// Stack

pub struct Model {
    own: u8,
    mtu: usize,
    now: Stamp,
    planned: u64,
    next_tag: u8,
    next_seq: u8,
    issues: u64,
    flows: Vec<FlowView>,
    slots: [Option<Slot>; SLOTS],
}

impl Model {
    fn flow(&self, peer: u8, tag: u8) -> Option<&FlowView> {
        self.flows.iter().find(|f| (f.peer, f.tag) == (peer, tag))
    }

    fn remove_flow(&mut self, peer: u8, tag: u8) {
        self.flows.retain(|f| (f.peer, f.tag) != (peer, tag));
    }

    fn fresh_tag(&mut self, peer: u8) -> Answer<u8> {
        self.next_tag = (self.next_tag + 1) % 8;
        (0..8)
            .map(|step| (self.next_tag + step) % 8)
            .find(|tag| self.flow(peer, *tag).is_none())
            .ok_or(Refusal::TagUnavailable)
    }

    fn insert_flow(&mut self, tag: u8, send: &Send) -> Answer<()> {
        let expiry = send.expires.then(|| self.now.event());
        if self.flows.len() == FLOWS {
            return Err(Refusal::TagUnavailable);
        }
        self.flows.push(FlowView { peer: send.dest, tag, cookie: send.cookie, expiry });
        Ok(())
    }

    /// The tag that the send carries; an owned one has its flow standing then.
    fn settle_tag(&mut self, send: &Send) -> Answer<Tag> {
        let value = match send.tag {
            TagWish::Unowned(value) => return Ok(Tag { owner: false, value }),
            TagWish::Fresh => self.fresh_tag(send.dest)?,
            TagWish::Owned(value) => value,
        };
        match self.flow(send.dest, value) {
            Some(flow) if flow.expiry.is_some() => return Err(Refusal::BadArgument),
            Some(_) => {}
            None => self.insert_flow(value, send)?,
        }
        Ok(Tag { owner: true, value })
    }

    fn is_own(&self, dest: u8) -> bool {
        dest == self.own || dest == NULL
    }

    /// Rule 39 of receive.
    fn find_slot(&self, header: Option<&Header>) -> Answer<usize> {
        let collecting = |s: &Option<Slot>| {
            let key = header.map(|h| h.key);
            s.as_ref().zip(key).is_some_and(|(s, key)| s.collects(key))
        };
        self.slots
            .iter()
            .position(collecting)
            .or_else(|| self.slots.iter().position(Option::is_none))
            .ok_or(Refusal::NoSpace)
    }

    /// Rules 40 to 42 of receive, for an empty slot.
    fn open(&mut self, header: Option<&Header>) -> Answer<Slot> {
        let stamp = self.now.event();
        let h = header.ok_or(Refusal::InvalidInput)?;
        let Key { source, dest, tag } = h.key;
        if !self.is_own(dest) || source == ANY || !h.som {
            return Err(Refusal::InvalidInput);
        }
        let cookie = if tag.owner { None } else { self.flow(source, tag.value).ok_or(Refusal::Unreachable)?.cookie };
        Ok(Slot::opened(h.key, cookie, stamp))
    }

    fn issue(&mut self, index: usize) -> Handle {
        self.issues = self.issues.saturating_add(1);
        let slot = self.slots[index].as_mut().expect("a done slot");
        slot.phase = Phase::Done { handle: Some(self.issues) };
        Handle { index, issue: self.issues }
    }

    /// The slot that the handle is out for.
    fn held(&mut self, handle: Handle) -> Answer<&mut Slot> {
        self.slots
            .get_mut(handle.index)
            .and_then(Option::as_mut)
            .filter(|s| s.handle() == Some(handle.issue))
            .ok_or(Refusal::BadArgument)
    }

    fn earliest(&mut self, wanted: impl Fn(&Slot) -> bool) -> Option<Handle> {
        let (_, index) = self
            .slots
            .iter()
            .enumerate()
            .filter_map(|(i, s)| s.as_ref().map(|s| (s, i)))
            .filter(|(s, _)| s.is_deferred() && wanted(s))
            .map(|(s, i)| (s.stamp, i))
            .min()?;
        Some(self.issue(index))
    }

    /// Frees what has expired, and gives the least remaining time and whether anything went.
    fn expire(&mut self) -> (u64, bool) {
        let now = self.now.clock;
        let mut least = INTERVAL;
        let mut any = false;
        let mut stays = |stamp: Stamp| {
            let left = stamp.remaining(now);
            least = least.min(left.unwrap_or(INTERVAL));
            any |= left.is_none();
            left.is_some()
        };
        for slot in &mut self.slots {
            if slot.as_ref().is_some_and(|s| s.handle().is_none() && !stays(s.stamp)) {
                *slot = None;
            }
        }
        self.flows.retain(|f| f.expiry.is_none_or(&mut stays));
        (least, any)
    }
}

impl Port for Model {
    type Fragmenter = Fragmenter;

    fn new(own: u8, mtu: usize, clock: u64) -> Answer<Self> {
        if mtu < SMALLEST_MTU {
            return Err(Refusal::BadArgument);
        }
        Ok(Model {
            own,
            mtu,
            now: Stamp { clock, counter: 0 },
            planned: 0,
            next_tag: 0,
            next_seq: 0,
            issues: 0,
            flows: Vec::new(),
            slots: Default::default(),
        })
    }

    fn set_eid(&mut self, eid: u8) -> Answer<()> {
        if !(8..=254).contains(&eid) {
            return Err(Refusal::InvalidInput);
        }
        self.own = eid;
        Ok(())
    }

    fn eid(&self) -> u8 {
        self.own
    }

    fn is_local_dest(&self, packet: &[u8]) -> bool {
        read_header(packet).is_some_and(|h| self.is_own(h.key.dest))
    }

    fn start_send(&mut self, send: &Send) -> Answer<Fragmenter> {
        let tag_too_big = match send.tag {
            TagWish::Fresh => false,
            TagWish::Owned(tag) | TagWish::Unowned(tag) => tag > LARGEST_TAG,
        };
        if send.typ > LARGEST_TYPE || tag_too_big {
            return Err(Refusal::InvalidInput);
        }
        let tag = self.settle_tag(send)?;
        self.next_seq = (self.next_seq + 1) % 4;
        let mtu = send.mtu.map_or(self.mtu, |m| m.min(self.mtu));
        if !(SMALLEST_MTU..=LARGEST_MTU).contains(&mtu) {
            return Err(Refusal::BadArgument);
        }
        Ok(Fragmenter {
            source: self.own,
            dest: send.dest,
            typ: send.typ,
            ic: send.ic,
            tag,
            cookie: send.cookie,
            mtu,
            sequence: self.next_seq,
            first: true,
            done: false,
            used: 0,
        })
    }

    fn fragment(fragmenter: &mut Fragmenter, payload: &[u8], out: &mut [u8]) -> Step {
        step(fragmenter, payload, out)
    }

    fn update(&mut self, clock: u64) -> Answer<(u64, bool)> {
        if clock < self.now.clock {
            return Err(Refusal::InvalidInput);
        }
        self.now.take_clock(clock);
        if clock < self.planned {
            return Ok((self.planned - clock, false));
        }
        let (least, any) = self.expire();
        self.planned = clock.saturating_add(least);
        Ok((least, any))
    }

    fn receive(&mut self, packet: &[u8], pool: &mut [u8]) -> Answer<Received> {
        if pool.len() < POOL {
            return Err(Refusal::PoolShort);
        }
        let header = read_header(packet);
        let index = self.find_slot(header.as_ref())?;
        let mut slot = match self.slots[index].take() {
            Some(slot) => slot,
            None => self.open(header.as_ref())?,
        };
        let event = self.now.event();
        let header = header.expect("a slot was found or opened by it");
        let complete = slot.take(&header, packet, index, event, pool)?;
        let message = slot.message(index, pool);
        let tag = slot.key.tag;
        self.slots[index] = Some(slot);
        if !complete {
            return Ok(Received::More);
        }
        if !tag.owner {
            self.remove_flow(message.source, tag.value);
        }
        Ok(Received::Message(message, self.issue(index)))
    }

    fn get_deferred(&mut self, source: u8, tag: Tag) -> Option<Handle> {
        self.earliest(|s| s.key.source == source && s.key.tag == tag)
    }

    fn get_deferred_bycookie(&mut self, cookies: &[u64]) -> Option<Handle> {
        self.earliest(|s| s.cookie.is_some_and(|c| cookies.contains(&c)))
    }

    fn fetch_message(&mut self, handle: Handle, pool: &[u8]) -> Answer<Message> {
        if pool.len() < POOL {
            return Err(Refusal::PoolShort);
        }
        Ok(self.held(handle)?.message(handle.index, pool))
    }

    fn finished_receive(&mut self, handle: Handle) -> Answer<()> {
        self.held(handle)?;
        self.slots[handle.index] = None;
        Ok(())
    }

    fn return_handle(&mut self, handle: Handle) -> Answer<()> {
        self.held(handle)?.phase = Phase::Done { handle: None };
        Ok(())
    }

    fn set_cookie(&mut self, handle: Handle, cookie: Cookie) -> Answer<()> {
        self.held(handle)?.cookie = cookie;
        Ok(())
    }

    fn cancel_flow(&mut self, source: u8, tag: u8) -> Answer<()> {
        if tag > LARGEST_TAG {
            return Err(Refusal::InvalidInput);
        }
        let reply = Tag { owner: false, value: tag };
        for slot in &mut self.slots {
            let Some(s) = slot else { continue };
            if s.key.source != source || s.key.tag != reply {
                continue;
            }
            if s.handle().is_some() {
                return Err(Refusal::BadArgument);
            }
            *slot = None;
        }
        self.remove_flow(source, tag);
        Ok(())
    }

    fn free_tags(&self, peer: u8) -> u8 {
        (0..8).filter(|tag| self.flow(peer, *tag).is_none()).count() as u8
    }

    fn snapshot(&self, pool: &[u8]) -> Snapshot {
        let mut flows = self.flows.clone();
        flows.sort();
        let view = |index: usize| {
            self.slots[index].as_ref().map(|s| SlotView {
                phase: s.phase,
                source: s.key.source,
                dest: s.key.dest,
                tag: s.key.tag,
                typ: s.typ,
                ic: s.ic,
                cookie: s.cookie,
                stamp: s.stamp,
                body: s.body(index, pool).to_vec(),
            })
        };
        Snapshot {
            own: self.own,
            mtu: self.mtu,
            now: self.now,
            planned: self.planned,
            next_tag: self.next_tag,
            next_seq: self.next_seq,
            issues: self.issues,
            flows,
            slots: std::array::from_fn(view),
        }
    }

    fn view(fragmenter: &Fragmenter) -> FragmenterView {
        *fragmenter
    }

    fn preset(&mut self, counter: u32, issues: u64) {
        self.now.counter = counter;
        self.issues = issues;
    }
}
