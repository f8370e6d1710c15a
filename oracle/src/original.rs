//! The original seen as a port, within the domain of equality.
//!
//! What the original lacks is kept beside it: issue numbers (counted here, the caller's being genuine), free tags
//! (counted over its flows), and the pool, to which each appended body is copied so that pools can be compared.

use crate::port::*;
use mctp::{Eid, Error, MsgIC, MsgType, TagValue};
use mctp_estack::fragment::{Fragmenter, SendOutput};
use mctp_estack::{peek, AppCookie, MctpMessage, ReceiveHandle, Stack};

pub struct Original {
    stack: Stack,
    issues: u64,
    /// The number of the handle that is out for each slot.
    handles: [Option<u64>; SLOTS],
}

fn refusal(error: Error) -> Refusal {
    match error {
        Error::InvalidInput => Refusal::InvalidInput,
        Error::NoSpace => Refusal::NoSpace,
        Error::BadArgument => Refusal::BadArgument,
        Error::TagUnavailable => Refusal::TagUnavailable,
        Error::Unreachable => Refusal::Unreachable,
    }
}

fn tag_of(tag: mctp::Tag) -> Tag {
    Tag { owner: tag.is_owner(), value: tag.tag().0 }
}

fn tag_for(tag: Tag) -> mctp::Tag {
    let value = TagValue(tag.value);
    if tag.owner {
        mctp::Tag::Owned(value)
    } else {
        mctp::Tag::Unowned(value)
    }
}

fn wished(wish: TagWish) -> Option<mctp::Tag> {
    match wish {
        TagWish::Fresh => None,
        TagWish::Owned(value) => Some(tag_for(Tag { owner: true, value })),
        TagWish::Unowned(value) => Some(tag_for(Tag { owner: false, value })),
    }
}

fn cookie_of(cookie: Option<AppCookie>) -> Cookie {
    cookie.map(|c| c.0 as u64)
}

fn cookie_for(cookie: Cookie) -> Option<AppCookie> {
    cookie.map(|c| AppCookie(c as usize))
}

fn stamp((clock, counter): peek::Stamp) -> Stamp {
    Stamp { clock, counter }
}

fn message(m: MctpMessage) -> Message {
    Message {
        source: m.source.0,
        dest: m.dest.0,
        tag: tag_of(m.tag),
        typ: m.typ.0,
        ic: m.ic.0,
        cookie: cookie_of(m.cookie),
        body: m.payload.to_vec(),
    }
}

impl Original {
    fn issue(&mut self, out: ReceiveHandle) -> Handle {
        self.issues = self.issues.saturating_add(1);
        let index = peek::index(&out);
        let before = self.handles[index].replace(self.issues);
        assert_eq!(before, None, "outside the domain: a second handle for slot {index}");
        Handle { index, issue: self.issues }
    }

    /// The genuine handle behind the numbers.
    fn genuine(&self, handle: Handle) -> ReceiveHandle {
        assert_eq!(self.handles[handle.index], Some(handle.issue), "outside the domain: no such handle is out");
        peek::handle(handle.index)
    }

    fn take_back(&mut self, handle: Handle) -> ReceiveHandle {
        let out = self.genuine(handle);
        self.handles[handle.index] = None;
        out
    }

    /// The slot that collects the packet's key.
    fn collecting(&self, packet: &[u8]) -> usize {
        let key = |s: &peek::SlotPeek| [s.dest, s.source, u8::from(s.owner) << 3 | s.tag];
        let wanted = [packet[1], packet[2], packet[3] & 0x0f];
        (0..SLOTS)
            .find(|i| peek::slot(&self.stack, *i).is_some_and(|s| s.next_seq.is_some() && key(&s) == wanted))
            .expect("the packet was taken")
    }

    fn copy_to_pool(&self, index: usize, packet: &[u8], pool: &mut [u8]) {
        let body = peek::slot(&self.stack, index).expect("the packet was taken").body;
        let lead = if packet[3] & 0x80 != 0 { 5 } else { 4 };
        let from = body.len() - (packet.len() - lead);
        pool[BODY * index..][from..body.len()].copy_from_slice(&body[from..]);
    }

    fn slot_view(&self, index: usize, pool: &[u8]) -> Option<SlotView> {
        let s = peek::slot(&self.stack, index)?;
        let handle = self.handles[index];
        assert_eq!(handle.is_some(), s.handle_out, "handle of slot {index}");
        assert!(pool[BODY * index..].starts_with(s.body), "body of slot {index}");
        Some(SlotView {
            phase: s.next_seq.map_or(Phase::Done { handle }, |expect| Phase::Collecting { expect }),
            source: s.source,
            dest: s.dest,
            tag: Tag { owner: s.owner, value: s.tag },
            typ: s.typ,
            ic: s.ic,
            cookie: s.cookie.map(|c| c as u64),
            stamp: stamp(s.stamp),
            body: s.body.to_vec(),
        })
    }

    fn flow_views(&self) -> Vec<FlowView> {
        let view = |f: peek::FlowPeek| FlowView {
            peer: f.peer,
            tag: f.tag,
            cookie: f.cookie.map(|c| c as u64),
            expiry: f.expiry.map(stamp),
        };
        let mut flows: Vec<_> = peek::flows(&self.stack).map(view).collect();
        flows.sort();
        flows
    }
}

impl Port for Original {
    type Fragmenter = Fragmenter;

    fn new(own: u8, mtu: usize, clock: u64) -> Result<Self, Refusal> {
        Ok(Self { stack: Stack::new(Eid(own), mtu, clock), issues: 0, handles: Default::default() })
    }

    fn set_eid(&mut self, eid: u8) -> Result<(), Refusal> {
        self.stack.set_eid(eid).map_err(refusal)
    }

    fn eid(&self) -> u8 {
        self.stack.eid().0
    }

    fn is_local_dest(&self, packet: &[u8]) -> bool {
        self.stack.is_local_dest(packet)
    }

    fn start_send(&mut self, s: &Send) -> Result<Fragmenter, Refusal> {
        let (dest, typ, ic) = (Eid(s.dest), MsgType(s.typ), MsgIC(s.ic));
        self.stack.start_send(dest, typ, wished(s.tag), s.expires, ic, s.mtu, cookie_for(s.cookie)).map_err(refusal)
    }

    fn fragment(fragmenter: &mut Fragmenter, payload: &[u8], out: &mut [u8]) -> Step {
        match fragmenter.fragment(payload, out) {
            SendOutput::Packet(packet) => Step::Packet(packet.len()),
            SendOutput::Complete { tag, cookie } => Step::Complete(tag_of(tag), cookie_of(cookie)),
            SendOutput::Error { err, cookie } => Step::Refused(refusal(err), cookie_of(cookie)),
        }
    }

    fn update(&mut self, clock: u64) -> Result<(u64, bool), Refusal> {
        self.stack.update(clock).map_err(refusal)
    }

    fn receive(&mut self, packet: &[u8], pool: &mut [u8]) -> Result<Received, Refusal> {
        let Some((m, out)) = self.stack.receive(packet).map_err(refusal)? else {
            self.copy_to_pool(self.collecting(packet), packet, pool);
            return Ok(Received::More);
        };
        let m = message(m);
        let handle = self.issue(out);
        self.copy_to_pool(handle.index, packet, pool);
        Ok(Received::Message(m, handle))
    }

    fn get_deferred(&mut self, source: u8, tag: Tag) -> Option<Handle> {
        let out = self.stack.get_deferred(Eid(source), tag_for(tag))?;
        Some(self.issue(out))
    }

    fn get_deferred_bycookie(&mut self, cookies: &[u64]) -> Option<Handle> {
        let cookies: Vec<_> = cookies.iter().map(|c| AppCookie(*c as usize)).collect();
        let out = self.stack.get_deferred_bycookie(&cookies)?;
        Some(self.issue(out))
    }

    fn fetch_message(&mut self, handle: Handle, _pool: &[u8]) -> Result<Message, Refusal> {
        let out = self.genuine(handle);
        Ok(message(self.stack.fetch_message(&out)))
    }

    fn finished_receive(&mut self, handle: Handle) -> Result<(), Refusal> {
        let out = self.take_back(handle);
        self.stack.finished_receive(out);
        Ok(())
    }

    fn return_handle(&mut self, handle: Handle) -> Result<(), Refusal> {
        let out = self.take_back(handle);
        self.stack.return_handle(out);
        Ok(())
    }

    fn set_cookie(&mut self, handle: Handle, cookie: Cookie) -> Result<(), Refusal> {
        let out = self.genuine(handle);
        self.stack.set_cookie(&out, cookie_for(cookie));
        Ok(())
    }

    fn cancel_flow(&mut self, source: u8, tag: u8) -> Result<(), Refusal> {
        self.stack.cancel_flow(Eid(source), TagValue(tag)).map_err(refusal)
    }

    fn free_tags(&self, peer: u8) -> u8 {
        8 - peek::flows(&self.stack).filter(|f| f.peer == peer).count() as u8
    }

    fn snapshot(&self, pool: &[u8]) -> Snapshot {
        let head = peek::head(&self.stack);
        Snapshot {
            own: self.eid(),
            mtu: head.mtu,
            now: stamp(head.now),
            planned: head.planned,
            next_tag: head.next_tag,
            next_seq: head.next_seq,
            issues: self.issues,
            flows: self.flow_views(),
            slots: std::array::from_fn(|index| self.slot_view(index, pool)),
        }
    }

    fn view(f: &Fragmenter) -> FragmenterView {
        let inner = peek::fragmenter(f);
        FragmenterView {
            source: inner.source,
            dest: f.dest().0,
            typ: inner.typ,
            ic: inner.ic,
            tag: tag_of(f.tag()),
            cookie: cookie_of(f.cookie()),
            mtu: inner.mtu,
            sequence: inner.seq,
            first: inner.first,
            done: f.is_done(),
            used: inner.used,
        }
    }

    fn preset(&mut self, counter: u32, issues: u64) {
        peek::set_counter(&mut self.stack, counter);
        self.issues = issues;
    }
}
