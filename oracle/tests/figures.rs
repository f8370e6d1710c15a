//! The figures of docs/RULES.md, section 11, through every port.

#[cfg(board)]
use oracle::board::Board;
use oracle::model::Model;
use oracle::original::Original;
use oracle::port::*;

fn fresh<P: Port>(mtu: usize) -> P {
    P::new(8, mtu, 0).expect("a stack")
}

fn question(dest: u8, mtu: Option<usize>) -> Send {
    Send { dest, typ: 1, tag: TagWish::Fresh, expires: true, ic: false, mtu, cookie: None }
}

/// All packets of a payload, cut with buffers of 255 bytes.
fn packets<P: Port>(mtu: usize, payload: &[u8]) -> Vec<Vec<u8>> {
    let mut fragmenter = fresh::<P>(mtu).start_send(&question(9, None)).expect("a send");
    let mut packets = Vec::new();
    let mut out = [0; 255];
    while let Step::Packet(len) = P::fragment(&mut fragmenter, payload, &mut out) {
        packets.push(out[..len].to_vec());
    }
    packets
}

fn receive<P: Port>(stack: &mut P, packet: &[u8]) -> Result<Received, Refusal> {
    stack.receive(packet, &mut [0; POOL])
}

fn single(len: usize) -> Vec<u8> {
    [&[1, 8, 9, 0xc9, 1], &vec![0x2a; len][..]].concat()
}

fn cuts<P: Port>() {
    assert_eq!(packets::<P>(255, &[0xaa, 0xbb, 0xcc]), [[1, 9, 8, 0xd9, 1, 0xaa, 0xbb, 0xcc]]);
    assert_eq!(packets::<P>(6, &[0xaa, 0xbb, 0xcc]), [[1, 9, 8, 0x99, 1, 0xaa], [1, 9, 8, 0x69, 0xbb, 0xcc]]);
    assert_eq!(packets::<P>(255, &[]), [[1, 9, 8, 0xd9, 1]]);
}

fn mtus_and_buffers<P: Port>() {
    let mut stack = fresh::<P>(300);
    for (mtu, taken) in [(4, false), (5, true), (255, true), (256, false)] {
        let sent = stack.start_send(&question(9, Some(mtu)));
        assert_eq!(sent.err(), (!taken).then_some(Refusal::BadArgument), "MTU {mtu}");
    }
    let mut fragmenter = fresh::<P>(255).start_send(&question(9, None)).expect("a send");
    assert_eq!(P::fragment(&mut fragmenter, &[], &mut [0; 4]), Step::Refused(Refusal::NoSpace, None));
    assert_eq!(P::fragment(&mut fragmenter, &[], &mut [0; 5]), Step::Packet(5));
}

fn tags<P: Port>() {
    let mut stack = fresh::<P>(255);
    let mut tag = |peer| stack.start_send(&question(peer, None)).map(|f| P::view(&f).tag.value);
    assert_eq!([1, 2, 3, 4, 5, 6, 7, 0].map(|_| tag(9)), [1, 2, 3, 4, 5, 6, 7, 0].map(Ok));
    assert_eq!(tag(9), Err(Refusal::TagUnavailable));
    assert_eq!(tag(10), Ok(2));
    assert_eq!((stack.free_tags(9), stack.free_tags(10)), (0, 7));
}

fn bodies<P: Port>() {
    let mut stack = fresh::<P>(255);
    let Ok(Received::Message(message, _)) = receive(&mut stack, &single(1032)) else { panic!("no message") };
    assert_eq!(message.body.len(), 1032);
    let mut stack = fresh::<P>(255);
    assert_eq!(receive(&mut stack, &single(1033)), Err(Refusal::NoSpace));
    assert_eq!(stack.snapshot(&[0; POOL]).slots, [const { None }; SLOTS]);
    let Ok(Received::Message(message, _)) = receive(&mut stack, &single(1)) else { panic!("no message") };
    assert_eq!((message.source, message.typ, message.body), (9, 1, vec![0x2a]));
}

fn clocks<P: Port>() {
    let mut stack = fresh::<P>(255);
    assert_eq!(receive(&mut stack, &[1, 8, 9, 0x89, 1]), Ok(Received::More));
    assert_eq!([6000, 6001].map(|clock| stack.update(clock)), [Ok((0, false)), Ok((100, true))]);
    let mut stack = fresh::<P>(255);
    assert_eq!([1000, 1040].map(|clock| stack.update(clock)), [Ok((100, false)), Ok((60, false))]);
}

fn headers<P: Port>() {
    let mut stack = fresh::<P>(255);
    for bad in [[2, 8, 9, 0x89, 1], [1, 8, 255, 0x89, 1], [1, 7, 9, 0x89, 1]] {
        assert_eq!(receive(&mut stack, &bad), Err(Refusal::InvalidInput));
    }
    assert_eq!(receive(&mut stack, &[1, 0, 9, 0x89, 1]), Ok(Received::More));
}

fn all<P: Port>() {
    cuts::<P>();
    mtus_and_buffers::<P>();
    tags::<P>();
    bodies::<P>();
    clocks::<P>();
    headers::<P>();
}

#[test]
fn original() {
    all::<Original>();
}

#[test]
fn model() {
    all::<Model>();
}

#[cfg(board)]
#[test]
fn board() {
    all::<Board>();
}
