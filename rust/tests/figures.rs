//! The figures of docs/RULES.md, section 11, through the wrapper. Each starts on a fresh stack: own EID 8, MTU 255, clock 0.

mod common;

use common::{ask, cut, fresh, take, whole, POOL};
use hyphaloom::*;

fn tag_of(stack: &mut Stack, peer: u8) -> Result<u8> {
    ask(stack, peer, None).map(|f| f.tag().tag().0)
}

#[test]
fn three_bytes_in_one_packet() {
    let send = ask(&mut fresh(255), 9, None).unwrap();
    assert_eq!(cut(send, &[0xAA, 0xBB, 0xCC], 255), [[0x01, 0x09, 0x08, 0xD9, 0x01, 0xAA, 0xBB, 0xCC]]);
}

#[test]
fn three_bytes_with_mtu_6() {
    let expected = [[0x01, 0x09, 0x08, 0x99, 0x01, 0xAA], [0x01, 0x09, 0x08, 0x69, 0xBB, 0xCC]];
    let send = ask(&mut fresh(255), 9, Some(6)).unwrap();
    assert_eq!(cut(send, &[0xAA, 0xBB, 0xCC], 255), expected);
    let send = ask(&mut fresh(6), 9, None).unwrap();
    assert_eq!(cut(send, &[0xAA, 0xBB, 0xCC], 255), expected);
}

#[test]
fn empty_payload() {
    let send = ask(&mut fresh(255), 9, None).unwrap();
    assert_eq!(cut(send, &[], 255), [[0x01, 0x09, 0x08, 0xD9, 0x01]]);
}

#[test]
fn send_mtu_from_5_to_255() {
    let mut stack = fresh(300);
    for (mtu, refusal) in [(4, Some(Error::BadArgument)), (5, None), (255, None), (256, Some(Error::BadArgument))] {
        assert_eq!(ask(&mut stack, 9, Some(mtu)).err(), refusal, "MTU {mtu}");
    }
}

#[test]
fn first_step_needs_5_bytes() {
    let mut send = ask(&mut fresh(255), 9, None).unwrap();
    assert_eq!(send.fragment(&[0xAA], &mut [0; 4]), SendOutput::Error { err: Error::NoSpace, cookie: None });
    assert_eq!(send.fragment(&[0xAA], &mut [0; 5]), SendOutput::Packet(&mut [0x01, 0x09, 0x08, 0x99, 0x01]));
}

#[test]
fn eight_fresh_tags() {
    let mut stack = fresh(255);
    for tag in [1, 2, 3, 4, 5, 6, 7, 0] {
        assert_eq!(tag_of(&mut stack, 9), Ok(tag));
    }
    assert_eq!(tag_of(&mut stack, 9), Err(Error::TagUnavailable));
    assert_eq!(tag_of(&mut stack, 10), Ok(2));
    assert_eq!((stack.free_tags(Eid(9)), stack.free_tags(Eid(10)), stack.free_tags(Eid(11))), (0, 7, 8));
}

#[test]
fn longest_body() {
    let (mut stack, mut pool) = (fresh(255), POOL);
    let body = [0x5A; 1032];
    let (message, _) = stack.receive(&mut pool, &whole(9, &body)).unwrap().expect("1,032 bytes are handed out");
    assert_eq!(message.payload, body);

    let (mut stack, mut pool) = (fresh(255), POOL);
    assert_eq!(take(&mut stack, &mut pool, &whole(9, &[0x5A; 1033])), Err(Error::NoSpace));
    assert_eq!(pool, POOL, "nothing is written");
    let handle = take(&mut stack, &mut pool, &whole(9, &[1])).unwrap().expect("a message");
    assert_eq!((handle.index(), handle.issue()), (0, 1), "the slot is empty, no handle went out");
}

#[test]
fn opening_packet_expires_after_6000() {
    let (mut stack, mut pool) = (fresh(255), POOL);
    assert_eq!(take(&mut stack, &mut pool, &[0x01, 0x08, 0x09, 0x89, 0x01]), Ok(None));
    assert_eq!(stack.update(6000), Ok((0, false)));
    assert_eq!(stack.update(6001), Ok((100, true)));
}

#[test]
fn idle_updates() {
    let mut stack = fresh(255);
    assert_eq!(stack.update(1000), Ok((100, false)));
    assert_eq!(stack.update(1040), Ok((60, false)));
}

#[test]
fn one_packet_message() {
    let (mut stack, mut pool) = (fresh(255), POOL);
    let (message, _) = stack.receive(&mut pool, &[0x01, 0x08, 0x09, 0xC9, 0x01, 0x2A]).unwrap().expect("a message");
    assert_eq!((message.source, message.dest), (Eid(9), Eid(8)));
    assert_eq!((message.tag, message.typ, message.ic), (Tag::Owned(TagValue(1)), MsgType(1), MsgIC(false)));
    assert_eq!((message.payload, message.cookie), (&[0x2A][..], None));
}

#[test]
fn headers() {
    let (mut stack, mut pool) = (fresh(255), POOL);
    for bad in [[0x02, 0x08, 0x09, 0xC9, 0x01], [0x01, 0x08, 0xFF, 0xC9, 0x01], [0x01, 0x07, 0x09, 0xC9, 0x01]] {
        assert_eq!(take(&mut stack, &mut pool, &bad), Err(Error::InvalidInput), "{bad:02X?}");
    }
    let (message, _) = stack.receive(&mut pool, &[0x01, 0x00, 0x09, 0xC9, 0x01]).unwrap().expect("destination 0 is taken");
    assert_eq!((message.dest, message.payload), (Eid::NULL, &[][..]));
}
