//! Every refusal, at each place that gives it, and what it leaves behind.

mod common;

use common::{ask, cut, fresh, send_under, take, whole, POOL};
use hyphaloom::config::POOL_BYTES;
use hyphaloom::Error::*;
use hyphaloom::*;

fn owned(tag: u8) -> Tag {
    Tag::Owned(TagValue(tag))
}

fn unowned(tag: u8) -> Tag {
    Tag::Unowned(TagValue(tag))
}

fn refused(err: Error) -> SendOutput<'static> {
    SendOutput::Error { err, cookie: None }
}

/// The first packet's fourth byte shows the tag and the sequence that a next request to EID 9 gets.
fn next_request(stack: &mut Stack) -> u8 {
    cut(ask(stack, 9, None).unwrap(), &[], 5)[0][3]
}

#[test]
fn numbers_and_words() {
    let all = [InvalidInput, NoSpace, BadArgument, TagUnavailable, Unreachable, PoolShort];
    assert_eq!(all.map(Error::number), [1, 2, 3, 4, 5, 6]);
    let words = ["invalid input", "no space", "bad argument", "tag unavailable", "unreachable", "pool short"];
    assert_eq!(all.map(|e| e.to_string()), words);
    let _: &dyn std::error::Error = &NoSpace;
}

#[test]
fn invalid_eid() {
    let mut stack = fresh(255);
    for eid in [0, 7, 255] {
        assert_eq!(stack.set_eid(eid), Err(InvalidInput));
        assert_eq!(Eid::new_normal(eid), Err(InvalidInput));
        assert_eq!(stack.eid(), Eid(8));
    }
    for eid in [9, 254] {
        assert_eq!(stack.set_eid(eid), Ok(()));
        assert_eq!((stack.eid(), Eid::new_normal(eid)), (Eid(eid), Ok(Eid(eid))));
    }
}

#[test]
fn invalid_type_or_tag_in_a_send_changes_nothing() {
    let mut stack = fresh(255);
    let typed = stack.start_send(Eid(9), MsgType(128), None, true, MsgIC(false), None, None);
    assert_eq!(typed.err(), Some(InvalidInput));
    for tag in [owned(8), unowned(8), owned(255)] {
        assert_eq!(send_under(&mut stack, 9, tag, false, None).err(), Some(InvalidInput));
    }
    assert_eq!(stack.free_tags(Eid(9)), 8);
    assert_eq!(next_request(&mut stack), 0xD9, "sequence 1 and tag 1, as on a fresh stack");
}

#[test]
fn invalid_clock() {
    let mut stack = Stack::new(Eid(8), 255, 500).unwrap();
    assert_eq!(stack.update(499), Err(InvalidInput));
    assert_eq!(stack.update(500), Ok((100, false)));
}

#[test]
fn invalid_payload_and_short_buffer_in_later_steps() {
    let mut send = ask(&mut fresh(255), 9, Some(6)).unwrap();
    let mut out = [0xEE; 8];
    assert!(matches!(send.fragment(&[1, 2, 3], &mut out), SendOutput::Packet([1, 9, 8, 0x99, 1, 1])));
    let mut out = [0xEE; 8];
    assert_eq!(send.fragment(&[1, 2, 3], &mut out[..3]), refused(NoSpace));
    assert_eq!(send.fragment(&[], &mut out[..3]), refused(NoSpace), "the buffer is tested first");
    assert_eq!(send.fragment(&[], &mut out), refused(InvalidInput));
    assert_eq!(out, [0xEE; 8], "nothing is written");
    assert_eq!(send.fragment(&[1, 2, 3], &mut out), SendOutput::Packet(&mut [1, 9, 8, 0x69, 2, 3]));
    assert_eq!(out[6..], [0xEE; 2], "bytes past the packet stay");
}

#[test]
fn a_refused_step_has_its_cookie() {
    let cookie = Some(AppCookie(77));
    let mut send = send_under(&mut fresh(255), 9, owned(3), true, cookie).unwrap();
    assert_eq!((send.dest(), send.tag(), send.cookie(), send.is_done()), (Eid(9), owned(3), cookie, false));
    assert_eq!(send.fragment(&[], &mut []), SendOutput::Error { err: NoSpace, cookie });
    assert!(matches!(send.fragment(&[], &mut [0; 5]), SendOutput::Packet(_)));
    assert_eq!(send.fragment(&[], &mut []), SendOutput::Complete { tag: owned(3), cookie });
    assert!(send.is_done());
}

#[test]
fn invalid_packets() {
    let (mut stack, mut pool) = (fresh(255), POOL);
    let bad: [&[u8]; 5] = [&[], &[1, 8, 9], &[2, 8, 9, 0xC9, 1], &[1, 8, 9, 0x49, 1], &[1, 8, 9, 0xC9]];
    for packet in bad {
        assert_eq!(take(&mut stack, &mut pool, packet), Err(InvalidInput), "{packet:02X?}");
    }
    assert_eq!(pool, POOL);
    let local = [&[1, 8, 9, 0xC9][..], &[1, 0, 9, 0x09], &[0xF1, 8, 9, 0]].map(|p| stack.is_local_dest(p));
    let other = [&[1, 7, 9, 0xC9][..], &[2, 8, 9, 0xC9], &[1, 8, 9], &[]].map(|p| stack.is_local_dest(p));
    assert_eq!((local, other), ([true; 3], [false; 4]));
}

#[test]
fn wrong_sequence_frees_the_slot() {
    let (mut stack, mut pool) = (fresh(255), POOL);
    assert_eq!(take(&mut stack, &mut pool, &[1, 8, 9, 0x89, 1, 0xAA]), Ok(None));
    assert_eq!(take(&mut stack, &mut pool, &[1, 8, 9, 0x69, 0xBB]), Err(InvalidInput), "sequence 2 where 1 comes next");
    assert_eq!(take(&mut stack, &mut pool, &[1, 8, 9, 0x59, 0xBB]), Err(InvalidInput), "no slot collects it now");
}

#[test]
fn no_slot_is_told_before_any_look_at_the_header() {
    let (mut stack, mut pool) = (fresh(255), POOL);
    for source in 10..14 {
        assert_eq!(take(&mut stack, &mut pool, &[1, 8, source, 0x89, 1]), Ok(None));
    }
    for packet in [&[][..], &whole(9, &[1]), &[2, 8, 9, 0xC9, 1]] {
        assert_eq!(take(&mut stack, &mut pool, packet), Err(NoSpace));
    }
}

#[test]
fn no_space_for_a_body_that_grows() {
    let (mut stack, mut pool) = (fresh(255), POOL);
    let opening = [&[1, 8, 9, 0x89, 1], &[0x11; 1000][..]].concat();
    assert_eq!(take(&mut stack, &mut pool, &opening), Ok(None));
    let before = pool;
    assert_eq!(take(&mut stack, &mut pool, &[&[1, 8, 9, 0x59], &[0x22; 33][..]].concat()), Err(NoSpace));
    assert_eq!(pool, before);
    assert_eq!(take(&mut stack, &mut pool, &[1, 8, 9, 0x59]), Err(InvalidInput), "the slot is freed");
}

#[test]
fn bad_mtu() {
    assert_eq!(Stack::new(Eid(8), 4, 0).err(), Some(BadArgument));
    let mut stack = fresh(255);
    assert_eq!(ask(&mut stack, 9, Some(4)).err(), Some(BadArgument));
    assert_eq!(stack.free_tags(Eid(9)), 7, "the flow stands");
    assert_eq!(next_request(&mut stack), 0xEA, "sequence 2 and tag 2: both have moved");
}

#[test]
fn owned_tags() {
    let mut stack = fresh(255);
    assert!(send_under(&mut stack, 9, owned(3), true, None).is_ok());
    assert_eq!(send_under(&mut stack, 9, owned(3), false, None).err(), Some(BadArgument), "it stands with an expiry");
    assert!(send_under(&mut stack, 9, owned(4), false, None).is_ok());
    assert!(send_under(&mut stack, 9, owned(4), true, None).is_ok(), "it stands without one");
    assert_eq!(stack.free_tags(Eid(9)), 6);
}

#[test]
fn tag_unavailable_in_a_full_table() {
    let mut stack = fresh(255);
    for n in 0..64 {
        assert!(ask(&mut stack, 10 + n / 8, None).is_ok());
    }
    assert_eq!(ask(&mut stack, 9, None).err(), Some(TagUnavailable));
    assert_eq!(send_under(&mut stack, 9, owned(0), true, None).err(), Some(TagUnavailable));
    assert_eq!(stack.free_tags(Eid(9)), 8, "tags are free, the table is full");
}

#[test]
fn unreachable_reply() {
    let (mut stack, mut pool) = (fresh(255), POOL);
    let reply = [1, 8, 9, 0xC1, 1, 0x2A];
    assert_eq!(take(&mut stack, &mut pool, &reply), Err(Unreachable));
    ask(&mut stack, 9, None).unwrap();
    let handle = take(&mut stack, &mut pool, &reply).unwrap().expect("its flow stands now");
    assert_eq!(stack.free_tags(Eid(9)), 8, "and goes with the reply");
    stack.finished_receive(handle).unwrap();
    assert_eq!(take(&mut stack, &mut pool, &reply), Err(Unreachable));
}

#[test]
fn pool_short_is_told_first() {
    let mut stack = fresh(255);
    let mut short = [0xEE; POOL_BYTES - 1];
    assert_eq!(take(&mut stack, &mut short, &[]), Err(PoolShort));
    assert_eq!(take(&mut stack, &mut short, &whole(9, &[1])), Err(PoolShort));
    assert_eq!(short, [0xEE; POOL_BYTES - 1]);
    let no_handle = ReceiveHandle::from_numbers(0, 0);
    assert_eq!(stack.fetch_message(&short, &no_handle), Err(PoolShort));
    assert_eq!(stack.fetch_message(&POOL, &no_handle), Err(BadArgument));
}

#[test]
fn a_longer_pool_keeps_its_tail() {
    let mut stack = fresh(255);
    let mut long = [0xEE; POOL_BYTES + 16];
    for source in 10..14 {
        let handle = take(&mut stack, &mut long, &whole(source, &[source; 1032])).unwrap().expect("a message");
        assert_eq!(stack.fetch_message(&long, &handle).unwrap().payload, [source; 1032]);
    }
    assert_eq!(long[POOL_BYTES..], [0xEE; 16]);
}

#[test]
fn cancels() {
    let (mut stack, mut pool) = (fresh(255), POOL);
    assert_eq!(stack.cancel_flow(Eid(9), TagValue(8)), Err(InvalidInput));
    assert_eq!(stack.cancel_flow(Eid(9), TagValue(1)), Ok(()), "absent is no error");
    ask(&mut stack, 9, None).unwrap();
    let handle = take(&mut stack, &mut pool, &[1, 8, 9, 0xC1, 1]).unwrap().expect("a reply");
    send_under(&mut stack, 9, owned(1), true, None).unwrap();
    assert_eq!(stack.cancel_flow(Eid(9), TagValue(1)), Err(BadArgument), "its handle is out");
    assert_eq!(stack.free_tags(Eid(9)), 7, "the flow stands");
    stack.return_handle(handle).unwrap();
    assert_eq!(stack.cancel_flow(Eid(9), TagValue(1)), Ok(()));
    assert_eq!((stack.free_tags(Eid(9)), stack.get_deferred(Eid(9), unowned(1))), (8, None));
}
