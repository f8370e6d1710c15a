//! Cuts and joins messages of 1,032 bytes at MTU 64; README.md says what is measured.

use mctp::{Eid, MsgIC, MsgType, Tag, TagValue};
use mctp_estack::fragment::{Fragmenter, SendOutput};
use mctp_estack::Stack;
#[cfg(board)]
use oracle::board::raw;
#[cfg(board)]
use oracle::port::{Send, TagWish, POOL};
#[cfg(board)]
use oracle::rows::send_row;
use std::hint::black_box;
use std::time::Instant;

const MESSAGE: usize = 1032;
const MTU: usize = 64;
const PACKETS: usize = 18;
const SENDER: u8 = 9;
const RECEIVER: u8 = 8;
const TAG: TagValue = TagValue(1);

#[derive(Debug, Clone, Copy)]
enum Kind {
    Request,
    Reply,
}

#[derive(Debug, Clone, Copy)]
enum Work {
    Cut,
    Join,
    Both,
}

/// One stack, with just the calls that are timed. A port is added by an `impl` and a line in `SUBJECTS`.
trait Subject {
    type Fragmenter;

    fn new(own: u8) -> Self;
    fn start_send(&mut self, dest: u8, kind: Kind) -> Self::Fragmenter;
    /// The packet's length, or none when the message has been cut to its end.
    fn fragment(fragmenter: &mut Self::Fragmenter, payload: &[u8], out: &mut [u8]) -> Option<usize>;
    /// The last packet gives the message's length and ends with `finished_receive`.
    fn receive(&mut self, packet: &[u8]) -> Option<usize>;
}

struct Original(Stack);

impl Subject for Original {
    type Fragmenter = Fragmenter;

    fn new(own: u8) -> Self {
        Original(Stack::new(Eid(own), MTU, 0))
    }

    fn start_send(&mut self, dest: u8, kind: Kind) -> Fragmenter {
        let tag = match kind {
            Kind::Request => Tag::Owned(TAG),
            Kind::Reply => Tag::Unowned(TAG),
        };
        let sent = self.0.start_send(Eid(dest), MsgType(1), Some(tag), false, MsgIC(false), None, None);
        sent.expect("a send")
    }

    fn fragment(fragmenter: &mut Fragmenter, payload: &[u8], out: &mut [u8]) -> Option<usize> {
        match fragmenter.fragment(payload, out) {
            SendOutput::Packet(packet) => Some(packet.len()),
            SendOutput::Complete { .. } => None,
            SendOutput::Error { err, .. } => panic!("{err:?}"),
        }
    }

    fn receive(&mut self, packet: &[u8]) -> Option<usize> {
        let (message, handle) = self.0.receive(packet).expect("a lawful packet")?;
        let len = black_box(message.payload).len();
        self.0.finished_receive(handle);
        Some(len)
    }
}

/// The proved port: its state and the pool are bytes, kept here.
#[cfg(board)]
struct Board {
    state: Box<[u8; raw::STATE]>,
    pool: Box<[u8; POOL]>,
}

#[cfg(board)]
impl Subject for Board {
    type Fragmenter = [u64; 13];

    fn new(own: u8) -> Self {
        let mut board = Board { state: Box::new([0; raw::STATE]), pool: Box::new([0; POOL]) };
        assert_eq!(raw::new(&mut board.state[..], own, MTU, 0), 0);
        board
    }

    fn start_send(&mut self, dest: u8, kind: Kind) -> [u64; 13] {
        let tag = match kind {
            Kind::Request => TagWish::Owned(TAG.0),
            Kind::Reply => TagWish::Unowned(TAG.0),
        };
        let send = Send { dest, typ: 1, tag, expires: false, ic: false, mtu: None, cookie: None };
        let mut fragmenter = [0; 13];
        assert_eq!(raw::start_send(&mut self.state[..], &send_row(&send), &mut fragmenter), 0);
        fragmenter
    }

    fn fragment(fragmenter: &mut [u64; 13], payload: &[u8], out: &mut [u8]) -> Option<usize> {
        let mut len = 0;
        assert_eq!(raw::fragment(fragmenter, payload, out, &mut len), 0);
        (len > 0).then_some(len as usize)
    }

    fn receive(&mut self, packet: &[u8]) -> Option<usize> {
        let mut handle = [0; 2];
        assert_eq!(raw::receive(&mut self.state[..], &mut self.pool[..], packet, &mut handle), 0);
        let [index, issue] = handle;
        if issue == 0 {
            return None;
        }
        let mut message = [0; 10];
        assert_eq!(raw::fetch_message(&self.state[..], &self.pool[..], index as usize, issue, &mut message), 0);
        let len = black_box(&self.pool[message[8] as usize..][..message[9] as usize]).len();
        assert_eq!(raw::finished_receive(&mut self.state[..], index as usize, issue), 0);
        Some(len)
    }
}

/// What every cut is lent; made once, never cleared.
struct Lent {
    payload: Vec<u8>,
    out: [u8; MTU],
}

fn each_packet<S: Subject>(sender: &mut S, kind: Kind, lent: &mut Lent, mut take: impl FnMut(&[u8])) {
    let mut fragmenter = sender.start_send(RECEIVER, kind);
    while let Some(len) = S::fragment(&mut fragmenter, black_box(&lent.payload), &mut lent.out) {
        take(black_box(&lent.out[..len]));
    }
}

/// A reply's question goes out first, so that its flow stands.
fn expect_from<S: Subject>(receiver: &mut S, kind: Kind) {
    if matches!(kind, Kind::Reply) {
        black_box(receiver.start_send(SENDER, Kind::Request));
    }
}

fn cut_whole<S: Subject>(sender: &mut S, kind: Kind, lent: &mut Lent) -> Vec<Vec<u8>> {
    let mut packets = Vec::new();
    each_packet(sender, kind, lent, |packet| packets.push(packet.to_vec()));
    packets
}

/// Nanoseconds for one message, over `count` of them.
fn time<S: Subject>(work: Work, kind: Kind, count: usize) -> f64 {
    let mut lent = Lent { payload: (0..MESSAGE).map(|i| (i * 7) as u8).collect(), out: [0; MTU] };
    let (mut sender, mut receiver) = (S::new(SENDER), S::new(RECEIVER));
    let packets = cut_whole(&mut sender, kind, &mut lent);
    assert_eq!(packets.len(), PACKETS);
    let mut joined = 0;
    let begun = Instant::now();
    for _ in 0..count {
        match work {
            Work::Cut => each_packet(&mut sender, kind, &mut lent, |packet| joined += packet.len()),
            Work::Join => {
                expect_from(&mut receiver, kind);
                joined += packets.iter().filter_map(|packet| receiver.receive(packet)).sum::<usize>();
            }
            Work::Both => {
                expect_from(&mut receiver, kind);
                each_packet(&mut sender, kind, &mut lent, |packet| joined += receiver.receive(packet).unwrap_or(0));
            }
        }
    }
    let spent = begun.elapsed().as_nanos() as f64;
    let headers = if matches!(work, Work::Cut) { 4 * PACKETS + 1 } else { 0 };
    assert_eq!(joined, count * (MESSAGE + headers), "every message whole");
    spent / count as f64
}

type Timer = fn(Work, Kind, usize) -> f64;

/// The original comes first, since the others are compared with it.
const SUBJECTS: &[(&str, Timer)] = &[
    ("original", time::<Original>),
    #[cfg(board)]
    ("board", time::<Board>),
];

fn median(times: &mut [f64]) -> f64 {
    times.sort_by(f64::total_cmp);
    times[times.len() / 2]
}

/// Subjects take turns in every round, so that a slow spell of the machine meets all of them.
fn measure(work: Work, kind: Kind, count: usize, rounds: usize) {
    let mut times = vec![Vec::new(); SUBJECTS.len()];
    for _ in 0..rounds {
        for (subject, (_, timer)) in SUBJECTS.iter().enumerate() {
            times[subject].push(timer(work, kind, count));
        }
    }
    let figures: Vec<_> = times.iter_mut().map(|times| (median(times), times[0])).collect();
    for ((name, _), (median, least)) in SUBJECTS.iter().zip(&figures) {
        let packet = median / PACKETS as f64;
        let label = format!("{work:?} {kind:?}").to_lowercase();
        let (ratio, of_least) = (median / figures[0].0, least / figures[0].1);
        println!("{label:<14} {name:<10} {median:>9.1} {least:>9.1} {packet:>9.2} {ratio:>7.2} {of_least:>7.2}");
    }
}

fn argument(place: usize, otherwise: usize) -> usize {
    std::env::args().nth(place).map_or(otherwise, |text| text.parse().expect("usage: bench [MESSAGES] [ROUNDS]"))
}

fn main() {
    let (count, rounds) = (argument(1, 2_000), argument(2, 501));
    println!(
        "{count} messages of {MESSAGE} bytes, MTU {MTU}, {PACKETS} packets, {rounds} rounds; no buffer is cleared"
    );
    println!(
        "{:<14} {:<10} {:>9} {:>9} {:>9} {:>7} {:>7}",
        "ns a message", "", "median", "least", "a packet", "ratio", "least's"
    );
    if SUBJECTS.len() == 1 {
        println!("{}", oracle::NO_BOARD);
    }
    for work in [Work::Cut, Work::Join, Work::Both] {
        for kind in [Kind::Request, Kind::Reply] {
            measure(work, kind, count, rounds);
        }
    }
}
