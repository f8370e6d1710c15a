//! Messages cut by one stack and joined by another.

mod common;

use common::{cut, send_under, take, POOL};
use hyphaloom::*;

fn pair() -> (Stack, Stack) {
    let stack = |eid| Stack::new(Eid(eid), 255, 0).expect("a stack");
    (stack(8), stack(9))
}

fn pattern(len: usize) -> Vec<u8> {
    (0..len).map(|i| (i * 7 + i / 256) as u8).collect()
}

/// Sends `body` from one stack to the other and back again, in packets of at most `room` bytes.
fn there_and_back(body: &[u8], room: usize) {
    let (mut board, mut blade) = pair();
    let (mut board_pool, mut blade_pool) = ([0x33; POOL.len()], [0x44; POOL.len()]);
    let cookie = Some(AppCookie(u64::MAX));
    let request = board.start_send(Eid(9), MsgType(127), None, true, MsgIC(true), None, cookie).unwrap();
    let handle = feed(&mut blade, &mut blade_pool, &cut(request, body, room));
    let asked = blade.fetch_message(&blade_pool, &handle).unwrap();
    assert_eq!((asked.source, asked.dest, asked.tag), (Eid(8), Eid(9), Tag::Owned(TagValue(1))));
    assert_eq!((asked.typ, asked.ic, asked.payload, asked.cookie), (MsgType(127), MsgIC(true), body, None));

    let tag = Some(Tag::Unowned(asked.tag.tag()));
    let reply = blade.start_send(asked.source, asked.typ, tag, false, MsgIC(false), None, None).unwrap();
    let handle = feed(&mut board, &mut board_pool, &cut(reply, asked.payload, room));
    let answer = board.fetch_message(&board_pool, &handle).unwrap();
    assert_eq!((answer.source, answer.tag), (Eid(9), Tag::Unowned(TagValue(1))));
    assert_eq!((answer.typ, answer.ic, answer.payload, answer.cookie), (MsgType(127), MsgIC(false), body, cookie));
}

/// Feeds all packets; only the last may hand out.
fn feed(stack: &mut Stack, pool: &mut [u8], packets: &[Vec<u8>]) -> ReceiveHandle {
    let (last, before) = packets.split_last().expect("a packet");
    for packet in before {
        assert_eq!(take(stack, pool, packet), Ok(None));
    }
    take(stack, pool, last).unwrap().expect("the last packet hands out")
}

#[test]
fn every_length_in_packets_of_64() {
    for len in 0..=1032 {
        there_and_back(&pattern(len), 64);
    }
}

#[test]
fn every_packet_size() {
    for room in 5..=300 {
        for len in [0, 1, 2, 250, 251, 1032] {
            there_and_back(&pattern(len), room);
        }
    }
}

#[test]
fn four_messages_at_once() {
    let mut stack = Stack::new(Eid(8), 255, 0).unwrap();
    let mut pool = POOL;
    let sends: Vec<_> = (0..4u8)
        .map(|n| {
            let mut sender = Stack::new(Eid(20 + n), 64, 0).unwrap();
            let send = send_under(&mut sender, 8, Tag::Owned(TagValue(n)), true, None).unwrap();
            cut(send, &[n; 1032], 64)
        })
        .collect();
    let count = sends[0].len();
    assert_eq!(count, 18, "59 bytes and 17 times 60");
    for step in 0..count {
        for (n, packets) in sends.iter().enumerate() {
            let done = stack.receive(&mut pool, &packets[step]).unwrap();
            assert_eq!(done.is_some(), step == count - 1);
            if let Some((message, handle)) = done {
                assert_eq!((message.source, message.payload), (Eid(20 + n as u8), &[n as u8; 1032][..]));
                assert_eq!(handle.index(), n);
            }
        }
    }
}

#[test]
fn a_lost_packet_is_noticed_and_the_message_can_come_again() {
    let (mut board, mut blade) = pair();
    let mut pool = POOL;
    let tag = Tag::Owned(TagValue(2));
    let mut packets = || cut(send_under(&mut board, 9, tag, false, None).unwrap(), &pattern(200), 64);
    let lossy = packets();
    assert_eq!(take(&mut blade, &mut pool, &lossy[0]), Ok(None));
    assert_eq!(take(&mut blade, &mut pool, &lossy[2]), Err(Error::InvalidInput));
    let handle = feed(&mut blade, &mut pool, &packets());
    assert_eq!(blade.fetch_message(&pool, &handle).unwrap().payload, pattern(200));
}

#[test]
fn a_new_opening_packet_starts_the_message_afresh() {
    let (_, mut blade) = pair();
    let mut pool = POOL;
    assert_eq!(take(&mut blade, &mut pool, &[1, 9, 8, 0x8B, 1, 0xAA, 0xBB]), Ok(None));
    assert_eq!(take(&mut blade, &mut pool, &[1, 9, 8, 0xAB, 5, 0xCC]), Ok(None));
    let (message, _) = blade.receive(&mut pool, &[1, 9, 8, 0x7B, 0xDD]).unwrap().expect("a message");
    assert_eq!((message.typ, message.payload), (MsgType(5), &[0xCC, 0xDD][..]));
}

#[test]
fn a_later_buffer_of_four_bytes_gives_bare_headers() {
    let (mut board, _) = pair();
    let mut send = send_under(&mut board, 9, Tag::Owned(TagValue(0)), true, None).unwrap();
    assert_eq!(send.fragment(&[7], &mut [0; 5]), SendOutput::Packet(&mut [1, 9, 8, 0x98, 1]));
    assert_eq!(send.fragment(&[7], &mut [0; 4]), SendOutput::Packet(&mut [1, 9, 8, 0x28]));
    assert_eq!(send.fragment(&[7], &mut [0; 4]), SendOutput::Packet(&mut [1, 9, 8, 0x38]));
    assert_eq!(send.fragment(&[7], &mut [0; 9]), SendOutput::Packet(&mut [1, 9, 8, 0x48, 7]));
}
