//! What the tests share.
#![allow(dead_code)]

use hyphaloom::config::POOL_BYTES;
use hyphaloom::*;

pub const POOL: Pool = [0; POOL_BYTES];

/// The figures' fresh stack: own EID 8, clock 0.
pub fn fresh(mtu: usize) -> Stack {
    Stack::new(Eid(8), mtu, 0).expect("a stack")
}

/// A request of type 1 under a fresh tag that expires.
pub fn ask(stack: &mut Stack, peer: u8, mtu: Option<usize>) -> Result<Fragmenter> {
    stack.start_send(Eid(peer), MsgType(1), None, true, MsgIC(false), mtu, None)
}

/// A send of type 1 under a given tag.
pub fn send_under(stack: &mut Stack, peer: u8, tag: Tag, expires: bool, cookie: Option<AppCookie>) -> Result<Fragmenter> {
    stack.start_send(Eid(peer), MsgType(1), Some(tag), expires, MsgIC(false), None, cookie)
}

/// All packets of a payload, through a packet buffer of so many bytes.
pub fn cut(mut fragmenter: Fragmenter, payload: &[u8], room: usize) -> Vec<Vec<u8>> {
    let mut out = vec![0; room];
    let mut packets = Vec::new();
    loop {
        match fragmenter.fragment(payload, &mut out) {
            SendOutput::Packet(packet) => packets.push(packet.to_vec()),
            SendOutput::Complete { .. } => return packets,
            SendOutput::Error { err, .. } => panic!("refused: {err}"),
        }
    }
}

/// A packet that is a whole request of type 1 to EID 8 under tag 1.
pub fn whole(source: u8, body: &[u8]) -> Vec<u8> {
    [&[1, 8, source, 0xC9, 1], body].concat()
}

/// The answer to a packet: the handle if it closes a message.
pub fn take(stack: &mut Stack, pool: &mut [u8], packet: &[u8]) -> Result<Option<ReceiveHandle>> {
    Ok(stack.receive(pool, packet)?.map(|(_, handle)| handle))
}
