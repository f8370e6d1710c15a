//! Makes the stored list: the figures, then rare situations, then random calls, answered by the original where they are in the domain
//! of equality, else by the model.

use crate::call::{payload, Answer, Call, Lent, KEPT};
use crate::cover::PRESET;
use crate::domain;
use crate::generate::Generator;
use crate::list::{self, Part, Record};
use crate::model::Model;
use crate::port::*;
use crate::replay::{Follower, Player};
use crate::rng::Rng;
use crate::tally::Tally;

const EPISODE: usize = 200;

#[derive(Default)]
pub struct Maker {
    original: Follower,
    model: Player<Model>,
    view: Option<FragmenterView>,
    pub tally: Tally,
    pub records: Vec<Record>,
    /// How many answers are the original's.
    pub by_original: usize,
}

impl Maker {
    fn put(&mut self, request: Part, outcome: Part) {
        if let Some(said) = self.original.follow(&request, &outcome) {
            assert_eq!(said, outcome, "the original and the model differ on {request}");
            self.by_original += 1;
        }
        self.records.push(Record { request, outcome });
    }

    /// Lends the payload, where another one was lent before.
    fn lend(&mut self, payload: &[u8]) {
        if self.model.payload() != payload {
            let request = Part::new(list::PAYLOAD, &[], payload);
            let (_, outcome) = self.model.perform(&request);
            self.put(request, outcome);
        }
    }

    fn pool(&mut self, pool: u64, at: usize, count: usize) {
        let request = Part::new(list::POOL_BYTES, &[pool, at as u64, count as u64], &[]);
        let (_, outcome) = self.model.perform(&request);
        self.put(request, outcome);
    }

    fn call(&mut self, call: Call) {
        let before = self.model.state();
        let request = list::request(&call);
        let (answer, outcome) = self.model.perform(&request);
        self.tally.note(&call, &answer, Some(&before), Some(&self.model.state()));
        self.put(request, outcome);
        if let Answer::Started(Ok(view)) | Answer::Stepped(_, _, view) = answer {
            self.view = Some(view);
        }
    }

    /// The answers and situations that a list must have and that have not come up.
    pub fn missing(&self) -> Vec<String> {
        self.tally.missing(&[&PRESET])
    }

    /// Random calls from a new stack on; now and then a look at the pools. Without `everything`, only calls in the domain
    /// of equality.
    pub fn episode(&mut self, seed: u64, everything: bool) {
        let mut generator = Generator::plain(seed, everything);
        let mut looks = Rng::new(seed ^ 0x706f_6f6c);
        self.call(generator.first());
        for _ in 0..generator.length().min(EPISODE) {
            let mut views = [None; KEPT];
            views[0] = self.view;
            let state = self.model.state();
            match generator.next(&state, &views) {
                Call::Fragment { .. } if self.view.is_none() => continue,
                call if !everything && !domain::permits(Some(&state), &call) => continue,
                Call::Fragment { which, seed, len, room } => {
                    self.lend(&payload(seed, len));
                    self.call(Call::Fragment { which, seed, len, room });
                }
                call => self.call(call),
            }
            if looks.one_in(12) {
                let at = looks.below(SLOTS) * BODY + looks.pick(&[0, 0, 0, 4, 500, 1000]);
                self.pool(looks.below(8) as u64 / 7, at, 1 + looks.below(32));
            }
        }
        self.pool(0, POOL - 4, 36);
        self.pool(1, POOL - 4, 36);
        self.probe();
    }

    /// Calls whose answers tell what the state was: every slot is brought to its end, then flows, tag and sequence.
    fn probe(&mut self) {
        for (index, slot) in self.model.state().slots.into_iter().enumerate() {
            let Some(slot) = slot else { continue };
            match slot.phase {
                Phase::Collecting { expect } => {
                    let flags = 0x40 | expect << 4 | u8::from(slot.tag.owner) << 3 | slot.tag.value;
                    self.receive(&[1, slot.dest, slot.source, flags]);
                }
                Phase::Done { handle: None } => self.call(Call::GetDeferred { source: slot.source, tag: slot.tag }),
                Phase::Done { handle: Some(issue) } => self.fetch_and_finish(index, issue),
            }
        }
        for (index, slot) in self.model.state().slots.into_iter().enumerate() {
            if let Some(Phase::Done { handle: Some(issue) }) = slot.map(|s| s.phase) {
                self.fetch_and_finish(index, issue);
            }
        }
        for peer in 9..12 {
            self.call(Call::FreeTags(peer));
        }
        self.send(14, None);
    }

    // The figures

    pub fn figures(&mut self) {
        self.cuts();
        self.mtus_and_buffers();
        self.tags();
        self.bodies();
        self.clocks();
        self.headers();
    }

    // Situations that random calls seldom make

    pub fn rare(&mut self) {
        self.replies();
        self.bad_on_full();
        self.cancel_at_handle();
        self.cut_and_join();
    }

    fn question(&mut self, tag: u8, cookie: u64) {
        let tag = TagWish::Owned(tag);
        let send = Send { dest: 9, typ: 1, tag, expires: false, ic: false, mtu: None, cookie: Some(cookie) };
        self.call(Call::StartSend { keep: 0, send });
    }

    /// A reply half in when another to destination 0 ends their flow.
    fn replies(&mut self) {
        self.fresh(64);
        self.question(1, 5);
        self.receive(&[1, 8, 9, 0x81, 1, 0x15]);
        self.receive(&[1, 0, 9, 0xc1, 1]);
        self.receive(&[1, 8, 9, 0x81, 2, 0x16]);
        self.question(1, 6);
        self.receive(&[1, 8, 9, 0x81, 3]);
        self.fetch_and_finish(1, 1);
        self.receive(&[1, 0, 9, 0xc1, 1]);
        self.receive(&[1, 8, 9, 0x51, 0x17, 0x18]);
        self.fetch_and_finish(0, 3);
    }

    /// SOM of 4 bytes on a collecting slot; bad packets where no slot is empty.
    fn bad_on_full(&mut self) {
        self.fresh(64);
        for source in 9..13 {
            self.receive(&[1, 8, source, 0x89, 1, source]);
        }
        for bad in [&[][..], &[1], &[2, 8, 9, 0x99, 1], &[1, 8, 13, 0x89, 1], &[1, 8, 9, 0x89]] {
            self.receive(bad);
        }
        self.receive(&[]);
    }

    /// Two replies of one tag in, the handle of the second out, a third half in.
    fn cancel_at_handle(&mut self) {
        self.fresh(64);
        for (flags, dest) in [(0xc1, 8), (0xc1, 8), (0x81, 0)] {
            self.question(1, 7);
            self.receive(&[1, dest, 9, flags, 1, flags]);
        }
        self.call(Call::Return(Handle { index: 0, issue: 1 }));
        for _ in 0..2 {
            self.call(Call::Cancel { source: 9, tag: 1 });
        }
        self.call(Call::FreeTags(9));
        self.receive(&[1, 0, 9, 0x51, 2]);
        self.fetch_and_finish(2, 3);
        self.question(1, 8);
        self.call(Call::Return(Handle { index: 1, issue: 2 }));
        self.call(Call::Cancel { source: 9, tag: 1 });
        self.call(Call::FreeTags(9));
        self.probe();
    }

    /// A whole message of 1,032 bytes from the stack to itself.
    fn cut_and_join(&mut self) {
        self.fresh(64);
        self.send(8, None);
        self.lend(&payload(0x33, BODY));
        loop {
            self.step(64);
            let outcome = &self.records.last().expect("a step").outcome;
            let packet = outcome.bytes[..outcome.words[13] as usize].to_vec();
            if packet.is_empty() {
                break;
            }
            self.receive(&packet);
        }
        self.pool(0, 0, BODY);
        self.fetch_and_finish(0, 1);
    }

    fn fresh(&mut self, mtu: usize) {
        self.call(Call::New { own: 8, mtu, clock: 0, counter: 0, issues: 0 });
    }

    fn send(&mut self, dest: u8, mtu: Option<usize>) {
        let send = Send { dest, typ: 1, tag: TagWish::Fresh, expires: true, ic: false, mtu, cookie: None };
        self.call(Call::StartSend { keep: 0, send });
    }

    fn step(&mut self, room: usize) {
        self.call(Call::Fragment { which: 0, seed: 0, len: self.model.payload().len(), room });
    }

    fn receive(&mut self, packet: &[u8]) {
        self.call(Call::Receive { packet: packet.to_vec(), lent: Lent::Exact });
    }

    fn fetch_and_finish(&mut self, index: usize, issue: u64) {
        let handle = Handle { index, issue };
        self.call(Call::Fetch { handle, lent: Lent::Exact });
        self.call(Call::Finish(handle));
    }

    fn cuts(&mut self) {
        for (mtu, payload) in [(255, &[0xaa, 0xbb, 0xcc][..]), (6, &[0xaa, 0xbb, 0xcc]), (255, &[])] {
            self.fresh(mtu);
            self.send(9, None);
            self.lend(payload);
            for _ in 0..3 {
                self.step(255);
            }
        }
    }

    fn mtus_and_buffers(&mut self) {
        self.fresh(300);
        for mtu in [4, 5, 255, 256] {
            self.send(9, Some(mtu));
        }
        self.fresh(255);
        self.send(9, None);
        for room in [4, 5, 5] {
            self.step(room);
        }
    }

    fn tags(&mut self) {
        self.fresh(255);
        for peer in [9, 9, 9, 9, 9, 9, 9, 9, 9, 10] {
            self.send(peer, None);
        }
        self.call(Call::FreeTags(9));
        self.call(Call::FreeTags(10));
    }

    fn bodies(&mut self) {
        self.fresh(255);
        let head = [1, 8, 9, 0xc9, 1];
        self.receive(&[&head, &payload(0x11, BODY)[..]].concat());
        self.pool(0, 0, BODY);
        self.fetch_and_finish(0, 1);
        self.receive(&[&head, &payload(0x22, BODY + 1)[..]].concat());
        self.pool(0, 0, 40);
        self.receive(&[1, 8, 9, 0xc9, 1, 0x2a]);
        self.fetch_and_finish(0, 2);
    }

    fn clocks(&mut self) {
        self.fresh(255);
        self.receive(&[1, 8, 9, 0x89, 1]);
        self.call(Call::Update(6000));
        self.call(Call::Update(6001));
        self.fresh(255);
        self.call(Call::Update(1000));
        self.call(Call::Update(1040));
    }

    fn headers(&mut self) {
        self.fresh(255);
        for bad in [[2, 8, 9, 0x89, 1], [1, 8, 255, 0x89, 1], [1, 7, 9, 0x89, 1]] {
            self.receive(&bad);
        }
        self.receive(&[1, 0, 9, 0x89, 1]);
    }
}
