//! Two ports side by side: one call to both, then answers, buffers, pools and states compared.

use crate::call::{payload, Answer, Call, Lent, KEPT};
use crate::domain;
use crate::port::*;
use std::fmt::Debug;

/// Bytes behind what is lent.
pub const TAIL: usize = 32;
/// What packet buffers hold before a step.
pub const FILL: u8 = 0xa5;

/// One port with what it is lent.
pub struct Side<P: Port> {
    port: Option<P>,
    fragmenters: [Option<P::Fragmenter>; KEPT],
    pub pool: Vec<u8>,
    pub other: Vec<u8>,
}

impl<P: Port> Side<P> {
    /// No stack yet; pools of `fill`.
    pub fn new(fill: u8) -> Self {
        let pool = vec![fill; POOL + TAIL];
        Self { port: None, fragmenters: Default::default(), other: pool.clone(), pool }
    }

    pub fn snapshot(&self) -> Option<Snapshot> {
        self.port.as_ref().map(|p| p.snapshot(&self.pool))
    }

    pub fn apply(&mut self, call: &Call) -> Answer {
        match *call {
            Call::New { own, mtu, clock, counter, issues } => self.start(own, mtu, clock, counter, issues),
            Call::Fragment { which, seed, len, room } => self.fragment(which, &payload(seed, len), room),
            _ => self.on_port(call).unwrap_or(Answer::Nothing),
        }
    }

    fn start(&mut self, own: u8, mtu: usize, clock: u64, counter: u32, issues: u64) -> Answer {
        Answer::Plain(P::new(own, mtu, clock).map(|mut port| {
            port.preset(counter, issues);
            self.port = Some(port);
        }))
    }

    /// The packet buffer has a tail that the step is not lent.
    pub fn fragment(&mut self, which: usize, payload: &[u8], room: usize) -> Answer {
        let Some(fragmenter) = &mut self.fragmenters[which] else { return Answer::Nothing };
        let mut out = vec![FILL; room + TAIL];
        let step = P::fragment(fragmenter, payload, &mut out[..room]);
        Answer::Stepped(step, out, P::view(fragmenter))
    }

    fn on_port(&mut self, call: &Call) -> Option<Answer> {
        let port = self.port.as_mut()?;
        Some(match call {
            Call::New { .. } | Call::Fragment { .. } => unreachable!("answered by apply"),
            Call::SetEid(eid) => Answer::Plain(port.set_eid(*eid)),
            Call::Eid => Answer::Number(port.eid()),
            Call::IsLocalDest(packet) => Answer::Local(port.is_local_dest(packet)),
            Call::StartSend { keep, send } => Answer::Started(port.start_send(send).map(|fragmenter| {
                let view = P::view(&fragmenter);
                self.fragmenters[*keep] = Some(fragmenter);
                view
            })),
            Call::Update(clock) => Answer::Updated(port.update(*clock)),
            Call::Receive { packet, lent } => {
                Answer::Received(port.receive(packet, lend(&mut self.pool, &mut self.other, *lent)))
            }
            Call::GetDeferred { source, tag } => Answer::Deferred(port.get_deferred(*source, *tag)),
            Call::GetDeferredByCookie(list) => Answer::Deferred(port.get_deferred_bycookie(list)),
            Call::Fetch { handle, lent } => {
                Answer::Fetched(port.fetch_message(*handle, lend(&mut self.pool, &mut self.other, *lent)))
            }
            Call::Finish(handle) => Answer::Plain(port.finished_receive(*handle)),
            Call::Return(handle) => Answer::Plain(port.return_handle(*handle)),
            Call::SetCookie(handle, cookie) => Answer::Plain(port.set_cookie(*handle, *cookie)),
            Call::Cancel { source, tag } => Answer::Plain(port.cancel_flow(*source, *tag)),
            Call::FreeTags(peer) => Answer::Number(port.free_tags(*peer)),
        })
    }
}

fn lend<'p>(pool: &'p mut [u8], other: &'p mut [u8], lent: Lent) -> &'p mut [u8] {
    match lent {
        Lent::Exact => &mut pool[..POOL],
        Lent::Long => pool,
        Lent::Short(len) => &mut pool[..len],
        Lent::Other => other,
    }
}

/// A call that both answered alike.
pub struct Made {
    pub answer: Answer,
    /// The state before the call.
    pub before: Option<Snapshot>,
}

pub struct Harness<A: Port, B: Port> {
    left: Side<A>,
    right: Side<B>,
    in_domain: bool,
    state: Option<Snapshot>,
    fragmenters: [Option<FragmenterView>; KEPT],
}

impl<A: Port, B: Port> Harness<A, B> {
    /// With `in_domain`, calls outside the domain of equality are passed over.
    pub fn new(in_domain: bool) -> Self {
        Self { left: Side::new(FILL), right: Side::new(FILL), in_domain, state: None, fragmenters: [None; KEPT] }
    }

    /// The state of both, once there is a stack.
    pub fn state(&self) -> Option<&Snapshot> {
        self.state.as_ref()
    }

    /// The fragmenters kept by both.
    pub fn fragmenters(&self) -> &[Option<FragmenterView>; KEPT] {
        &self.fragmenters
    }

    /// One call to both, or none when it is outside the domain; the error says what differs.
    pub fn apply(&mut self, call: &Call) -> Result<Option<Made>, String> {
        if self.in_domain && !domain::permits(self.state(), call) {
            return Ok(None);
        }
        let answer = self.left.apply(call);
        same("answers", &answer, &self.right.apply(call))?;
        same_bytes("pools", &self.left.pool, &self.right.pool)?;
        same_bytes("second pools", &self.left.other, &self.right.other)?;
        let state = self.left.snapshot();
        same("states", &state, &self.right.snapshot())?;
        self.keep_view(call, &answer);
        let before = std::mem::replace(&mut self.state, state);
        Ok(Some(Made { answer, before }))
    }

    fn keep_view(&mut self, call: &Call, answer: &Answer) {
        match (call, answer) {
            (Call::StartSend { keep: at, .. }, Answer::Started(Ok(view)))
            | (Call::Fragment { which: at, .. }, Answer::Stepped(_, _, view)) => self.fragmenters[*at] = Some(*view),
            _ => {}
        }
    }
}

fn same<T: PartialEq + Debug>(what: &str, left: &T, right: &T) -> Result<(), String> {
    if left == right {
        return Ok(());
    }
    Err(format!("{what} differ\n  left:  {left:x?}\n  right: {right:x?}"))
}

fn same_bytes(what: &str, left: &[u8], right: &[u8]) -> Result<(), String> {
    if left == right {
        return Ok(());
    }
    let at = left.iter().zip(right).position(|(l, r)| l != r).expect("pools are equally long");
    Err(format!("{what} differ first at byte {at}: left {:02x}, right {:02x}", left[at], right[at]))
}
