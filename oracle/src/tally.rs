//! How often each answer of each call, and each situation worth trying, came up.

use crate::call::{Answer, Call};
use crate::cover::{ANSWERS, SITUATIONS};
use crate::domain::is_genuine;
use crate::port::*;
use std::collections::BTreeMap;
use std::fmt;

#[derive(Default)]
pub struct Tally {
    pub calls: u64,
    pub passed: u64,
    answers: BTreeMap<(&'static str, &'static str), u64>,
    situations: BTreeMap<&'static str, u64>,
}

/// A call between two states.
struct Scene<'a> {
    before: &'a Snapshot,
    after: &'a Snapshot,
    answer: &'a Answer,
}

impl Tally {
    pub fn note(&mut self, call: &Call, answer: &Answer, before: Option<&Snapshot>, after: Option<&Snapshot>) {
        self.calls += 1;
        *self.answers.entry((call.name(), answer.kind())).or_default() += 1;
        if let (Some(before), Some(after)) = (before, after) {
            self.look(call, &Scene { before, after, answer });
        }
    }

    /// The answers and situations that have not come up, but for these.
    pub fn missing(&self, but: &[&[&str]]) -> Vec<String> {
        let answers = ANSWERS.iter().filter(|(call, kind)| !self.answers.contains_key(&(*call, *kind)));
        let situations = SITUATIONS.iter().filter(|name| !self.situations.contains_key(*name));
        let names = answers.map(|(call, kind)| format!("{call}: {kind}")).chain(situations.map(|s| s.to_string()));
        names.filter(|name| !but.iter().any(|names| names.contains(&name.as_str()))).collect()
    }

    fn mark(&mut self, name: &'static str, seen: bool) {
        if seen {
            *self.situations.entry(name).or_default() += 1;
        }
    }

    fn look(&mut self, call: &Call, scene: &Scene) {
        match call {
            Call::Receive { packet, .. } => self.receive(packet, scene),
            Call::Update(clock) => self.update(*clock, scene),
            Call::StartSend { send, .. } => self.start_send(send, scene),
            Call::Fragment { room, .. } => self.fragment(*room, scene),
            Call::SetEid(_) => {
                let collecting = scene.before.slots.iter().flatten().any(is_collecting);
                self.mark("set_eid: while a slot collects", collecting && scene.answer.refusal().is_none());
            }
            Call::Cancel { source, tag } => {
                let reply = Tag { owner: false, value: *tag };
                self.cancel(scene, |s| s.source == *source && s.tag == reply);
            }
            Call::GetDeferred { source, tag } => {
                self.deferred(scene, |s| s.source == *source && s.tag == *tag);
                self.mark("get_deferred: tag above 7", tag.value > 7);
            }
            Call::GetDeferredByCookie(list) => {
                self.deferred(scene, |s| s.cookie.is_some_and(|c| list.contains(&c)));
            }
            _ => {}
        }
        if let Some(handle) = call.handle() {
            self.handle(handle, scene.before);
        }
        self.limits(scene);
    }

    fn receive(&mut self, packet: &[u8], scene: &Scene) {
        let refusal = scene.answer.refusal();
        let full = scene.before.slots.iter().all(Option::is_some);
        self.mark("receive: no slot is empty", full);
        self.mark("receive: empty packet on a full stack", full && packet.is_empty());
        let bad = packet.len() < 4 || packet[0] & 0x0f != 1;
        self.mark("receive: bad header on a full stack", full && bad && !packet.is_empty());
        if bad || refusal == Some(Refusal::PoolShort) {
            return;
        }
        let taken = refusal.is_none();
        let before = scene.before;
        let som = packet[3] & 0x80 != 0;
        let reply = packet[3] & 0x08 == 0;
        let of_key = |s: &&SlotView| is_key_of(s, packet);
        let slot = before.slots.iter().flatten().filter(of_key).find(|s| is_collecting(s));
        let has_flow = |at: &Snapshot| at.flows.iter().any(|f| is_flow_of(f, packet));
        if let Some(slot) = slot {
            let expect = Phase::Collecting { expect: packet[3] >> 4 & 3 };
            self.mark("receive: sequence error", !som && slot.phase != expect);
            self.mark("receive: sequence goes on from 3 to 0", taken && !som && packet[3] & 0x30 == 0);
            self.mark("receive: restart by SOM", som && packet.len() > 4);
            self.mark("receive: restart of a reply whose flow is gone", som && reply && !has_flow(before));
            let other = before.flows.iter().any(|f| is_flow_of(f, packet) && f.cookie != slot.cookie);
            self.mark("receive: restart of a reply whose flow has another cookie", som && reply && other);
            self.mark("receive: SOM of 4 bytes on a collecting slot", som && packet.len() == 4);
            self.mark("receive: body above 1,032", refusal == Some(Refusal::NoSpace));
            self.mark("receive: taken for an old own EID", taken && ![before.own, 0].contains(&packet[1]));
        } else {
            self.mark("receive: SOM of 4 bytes on an empty slot", !full && som && packet.len() == 4);
            self.mark("receive: one packet above 1,032", !full && refusal == Some(Refusal::NoSpace));
            let done = before.slots.iter().flatten().any(|s| is_key_of(s, packet));
            self.mark("receive: new SOM beside a done slot of its key", taken && done);
        }
        self.mark("receive: destination 0 taken", taken && packet[1] == 0);
        self.mark("receive: reserved bits set, taken", taken && packet[0] > 15);
        self.mark("receive: source 255", packet[2] == 255);
        self.message(packet, scene);
    }

    fn message(&mut self, packet: &[u8], scene: &Scene) {
        let Answer::Received(Ok(Received::Message(message, _))) = scene.answer else { return };
        self.mark("receive: message of 1,032", message.body.len() == BODY);
        self.mark("receive: empty message", message.body.is_empty());
        let reply = packet[3] & 0x08 == 0;
        let has_flow = scene.before.flows.iter().any(|f| is_flow_of(f, packet));
        self.mark("receive: reply closes, flow already gone", reply && !has_flow);
        self.mark("receive: reply closes and ends its flow", reply && has_flow);
    }

    fn update(&mut self, clock: u64, scene: &Scene) {
        if scene.answer.refusal().is_some() {
            return;
        }
        if clock < scene.before.planned {
            return self.mark("update: below the planned check", true);
        }
        for slot in scene.before.slots.iter().flatten() {
            let age = clock - slot.stamp.clock;
            match slot.phase {
                Phase::Collecting { .. } => self.age(age, &AGES_COLLECTING),
                Phase::Done { handle: None } => self.age(age, &AGES_DONE),
                Phase::Done { .. } => self.mark("update: handle out, older than 6,000", age > TIMEOUT),
            }
        }
        for expiry in scene.before.flows.iter().filter_map(|f| f.expiry) {
            self.age(clock - expiry.clock, &AGES_FLOW);
        }
        self.mark("update: planned check at 2^64 - 1", scene.after.planned == u64::MAX);
    }

    fn age(&mut self, age: u64, names: &[&'static str; 3]) {
        for (step, name) in names.iter().enumerate() {
            self.mark(name, age == TIMEOUT - 1 + step as u64);
        }
    }

    fn start_send(&mut self, send: &Send, scene: &Scene) {
        let before = scene.before;
        let refusal = scene.answer.refusal();
        let tags = before.flows.iter().filter(|f| f.peer == send.dest).count();
        let unavailable = refusal == Some(Refusal::TagUnavailable);
        self.mark("start_send: table full", unavailable && before.flows.len() == FLOWS && tags < 8);
        self.mark("start_send: table full, event counted", unavailable && before.now != scene.after.now);
        self.mark("start_send: no tag free", unavailable && tags == 8);
        let stands = |value| before.flows.iter().find(|f| (f.peer, f.tag) == (send.dest, value));
        if let TagWish::Owned(value) = send.tag {
            let reused = stands(value).is_some_and(|f| f.expiry.is_none());
            self.mark("start_send: owned tag used again", reused && refusal.is_none());
            self.mark("start_send: owned tag that expires", refusal.is_some() && stands(value).is_some() && !reused);
        }
        let grown = before.flows.len() < scene.after.flows.len();
        let refused = refusal == Some(Refusal::BadArgument);
        let moved = before.next_seq != scene.after.next_seq;
        self.mark("start_send: MTU 4 refused", refused && moved && mtu(send, before) == 4);
        self.mark("start_send: MTU 256 refused", refused && moved && mtu(send, before) == 256);
        self.mark("start_send: MTU refused, flow left behind", grown && refusal == Some(Refusal::BadArgument));
    }

    fn fragment(&mut self, room: usize, scene: &Scene) {
        let Answer::Stepped(step, _, view) = scene.answer else { return };
        let header_alone = *step == Step::Packet(4);
        self.mark("fragment: header alone, not the last", header_alone && !view.done);
        self.mark("fragment: header alone, the last", header_alone && view.done);
        let short = matches!(step, Step::Refused(Refusal::NoSpace, _));
        self.mark("fragment: first step with 4 bytes", short && view.first && room == 4);
        self.mark("fragment: later step under 4 bytes", short && !view.first);
        self.mark(
            "fragment: message of several packets ends",
            matches!(step, Step::Packet(_)) && view.done && view.used > 300,
        );
    }

    fn cancel(&mut self, scene: &Scene, is_reply: impl Fn(&SlotView) -> bool) {
        let used = |at: &Snapshot| at.slots.iter().flatten().count();
        let freed = used(scene.after) < used(scene.before);
        let stopped = scene.answer.refusal() == Some(Refusal::BadArgument);
        self.mark("cancel_flow: frees a slot", freed);
        self.mark("cancel_flow: frees one, then stops at a handle", freed && stopped);
        let more = scene.after.slots.iter().flatten().filter(|s| is_reply(s)).count() > 1;
        self.mark("cancel_flow: stops at a handle, more behind", stopped && more);
        self.mark("cancel_flow: removes a flow", scene.after.flows.len() < scene.before.flows.len());
    }

    fn deferred(&mut self, scene: &Scene, wanted: impl Fn(&SlotView) -> bool) {
        let matching: Vec<_> = scene.before.slots.iter().flatten().filter(|s| wanted(s)).collect();
        let waiting: Vec<_> = matching.iter().filter(|s| s.phase == Phase::Done { handle: None }).collect();
        let earliest = waiting.iter().map(|s| s.stamp).min();
        self.mark("deferred: one of several", waiting.len() > 1);
        let lowest = waiting.first().map(|s| s.stamp);
        self.mark("deferred: the earliest is not the lowest", lowest > earliest);
        self.mark("deferred: equal stamps", waiting.iter().filter(|s| Some(s.stamp) == earliest).count() > 1);
        let out = |s: &&&SlotView| matches!(s.phase, Phase::Done { handle: Some(_) });
        let passed_over = matching.iter().filter(out).any(|s| earliest.is_none_or(|e| s.stamp < e));
        self.mark("deferred: an earlier one has its handle out", passed_over);
        let stale = earliest.is_some_and(|e| scene.before.now.clock - e.clock > TIMEOUT);
        self.mark("deferred: found past its time", stale);
    }

    fn handle(&mut self, handle: Handle, before: &Snapshot) {
        let slot = before.slots.get(handle.index);
        self.mark("handle: genuine", is_genuine(before, handle));
        self.mark("handle: index above 3", slot.is_none());
        self.mark("handle: slot is empty", slot.is_some_and(Option::is_none));
        let Some(Some(slot)) = slot else { return };
        self.mark("handle: slot collects", is_collecting(slot));
        self.mark("handle: none out", slot.phase == Phase::Done { handle: None });
        let another = matches!(slot.phase, Phase::Done { handle: Some(out) } if out != handle.issue);
        self.mark("handle: another number", another);
    }

    fn limits(&mut self, scene: &Scene) {
        let (before, after) = (scene.before, scene.after);
        let near = after.now.counter > u32::MAX - 34;
        self.mark("limit: counter moves near its end", near && before.now != after.now);
        self.mark("limit: counter at 2^32 - 1", after.now.counter == u32::MAX);
        self.mark("limit: issue number at 2^64 - 1", after.issues == u64::MAX);
        self.mark("limit: clock at 2^64 - 101 or later", after.now.clock >= u64::MAX - 100);
    }
}

const AGES_COLLECTING: [&str; 3] =
    ["update: collecting, age 5,999", "update: collecting, age 6,000", "update: collecting, age 6,001"];
const AGES_DONE: [&str; 3] = ["update: done, age 5,999", "update: done, age 6,000", "update: done, age 6,001"];
const AGES_FLOW: [&str; 3] = ["update: flow, age 5,999", "update: flow, age 6,000", "update: flow, age 6,001"];

/// The smaller MTU.
fn mtu(send: &Send, state: &Snapshot) -> usize {
    send.mtu.map_or(state.mtu, |m| m.min(state.mtu))
}

fn is_collecting(slot: &SlotView) -> bool {
    matches!(slot.phase, Phase::Collecting { .. })
}

fn is_flow_of(flow: &FlowView, packet: &[u8]) -> bool {
    (flow.peer, flow.tag) == (packet[2], packet[3] & 7)
}

fn is_key_of(slot: &SlotView, packet: &[u8]) -> bool {
    let flags = u8::from(slot.tag.owner) << 3 | slot.tag.value;
    [slot.dest, slot.source, flags] == [packet[1], packet[2], packet[3] & 0x0f]
}

impl fmt::Display for Tally {
    fn fmt(&self, f: &mut fmt::Formatter<'_>) -> fmt::Result {
        for ((call, answer), count) in &self.answers {
            writeln!(f, "{count:>12}  {call}: {answer}")?;
        }
        writeln!(f)?;
        for (name, count) in &self.situations {
            writeln!(f, "{count:>12}  {name}")?;
        }
        Ok(())
    }
}
