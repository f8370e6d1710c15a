//! A stored list played on a port.

use crate::call::{Answer, Call};
use crate::domain;
use crate::harness::Side;
use crate::list::{self, Part};
use crate::original::Original;
use crate::port::*;
use crate::rows::{fragmenter_row, message_row, FragmenterRow};

/// What rows hold before a call.
const MARK: u64 = 7777;

/// A port with the payload and the fragmenter's row that a list keeps.
pub struct Player<P: Port> {
    side: Side<P>,
    payload: Vec<u8>,
    row: FragmenterRow,
}

impl<P: Port> Default for Player<P> {
    fn default() -> Self {
        let mut side = Side::new(0);
        side.apply(&Call::New { own: 8, mtu: 64, clock: 0, counter: 0, issues: 0 });
        Self { side, payload: Vec::new(), row: [0; 13] }
    }
}

impl<P: Port> Player<P> {
    pub fn state(&self) -> Snapshot {
        self.side.snapshot().expect("a stack from the start")
    }

    pub fn payload(&self) -> &[u8] {
        &self.payload
    }

    /// Makes the call; a payload and a look at a pool have no answer of a port.
    pub fn perform(&mut self, request: &Part) -> (Answer, Part) {
        let answer = match request.lead {
            list::PAYLOAD => {
                self.payload = request.bytes.clone();
                return (Answer::Nothing, Part::default());
            }
            list::POOL_BYTES => return (Answer::Nothing, self.pool_bytes(&request.words)),
            list::FRAGMENT => self.side.fragment(0, &self.payload, request.words[0] as usize),
            _ => self.side.apply(&list::call(request).expect("a call of a port")),
        };
        let outcome = self.outcome(request, &answer);
        (answer, outcome)
    }

    fn pool_bytes(&self, words: &[u64]) -> Part {
        let pool = if words[0] == 0 { &self.side.pool } else { &self.side.other };
        Part::new(0, &[], &pool[words[1] as usize..][..words[2] as usize])
    }

    fn outcome(&mut self, request: &Part, answer: &Answer) -> Part {
        let number = answer.refusal().map_or(0, |r| r as u8);
        let words = |words: &[u64]| Part::new(number, words, &[]);
        match answer {
            Answer::Nothing => panic!("no stack or no fragmenter"),
            Answer::Plain(_) => words(&[]),
            Answer::Number(n) => Part::new(*n, &[], &[]),
            Answer::Local(local) => Part::new((*local).into(), &[], &[]),
            Answer::Started(view) => {
                self.row = view.as_ref().map_or(self.row, fragmenter_row);
                words(&self.row)
            }
            Answer::Stepped(step, out, view) => self.stepped(step, &out[..request.words[0] as usize], view, number),
            Answer::Updated(next) => words(&next.map_or([MARK; 2], |(time, expired)| [time, expired.into()])),
            Answer::Received(Err(_)) => words(&[MARK; 2]),
            Answer::Received(Ok(Received::Message(_, h))) | Answer::Deferred(Some(h)) => {
                words(&[h.index as u64, h.issue])
            }
            Answer::Received(Ok(Received::More)) | Answer::Deferred(None) => words(&[0, 0]),
            Answer::Fetched(Err(_)) => words(&[MARK; 10]),
            Answer::Fetched(Ok(m)) => Part::new(number, &message_row(m, request.words[2] as usize), &m.body),
        }
    }

    fn stepped(&mut self, step: &Step, out: &[u8], view: &FragmenterView, number: u8) -> Part {
        let len = match step {
            Step::Packet(len) => *len as u64,
            Step::Complete(..) => 0,
            Step::Refused(..) => MARK,
        };
        self.row = fragmenter_row(view);
        Part::new(number, &[&self.row[..], &[len]].concat(), out)
    }
}

/// The original beside a list: it makes the calls that are in the domain of equality, as long as those before have left
/// it in step.
pub struct Follower {
    player: Player<Original>,
    in_step: bool,
    /// The fragmenter's row by the list.
    row: Vec<u64>,
}

impl Default for Follower {
    fn default() -> Self {
        Self { player: Player::default(), in_step: true, row: vec![0; 13] }
    }
}

impl Follower {
    /// The original's outcome, or none where the call is passed over.
    pub fn follow(&mut self, request: &Part, expected: &Part) -> Option<Part> {
        let permitted = match request.lead {
            list::PAYLOAD => true,
            // Pools are added, and are not lent by calls passed over.
            list::POOL_BYTES => false,
            list::FRAGMENT => self.player.row[..] == self.row[..],
            list::NEW => self.permits(request),
            _ => self.in_step && self.permits(request),
        };
        if matches!(request.lead, list::START_SEND | list::FRAGMENT) {
            self.row = expected.words[..13].to_vec();
        }
        if !permitted {
            self.in_step &= leaves_state(request, expected);
            return None;
        }
        self.in_step |= request.lead == list::NEW;
        let mut outcome = self.player.perform(request).1;
        if request.lead == list::START_SEND && outcome.lead != 0 {
            // A refusal leaves the row, which may come from a send passed over.
            outcome.words.clone_from(&self.row);
        }
        Some(outcome)
    }

    fn permits(&self, request: &Part) -> bool {
        domain::permits(Some(&self.player.state()), &list::call(request).expect("a call of a port"))
    }
}

/// Whether a call outside the domain changes nothing: a refusal but receive's, which counts events, or a lookup in vain.
fn leaves_state(request: &Part, outcome: &Part) -> bool {
    match request.lead {
        list::RECEIVE => outcome.lead == Refusal::PoolShort as u8,
        list::GET_DEFERRED | list::GET_DEFERRED_BYCOOKIE => outcome.words == [0, 0],
        list::FRAGMENT | list::POOL_BYTES | list::FETCH => true,
        _ => outcome.lead != 0,
    }
}
