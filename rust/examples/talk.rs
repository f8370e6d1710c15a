//! Two stacks exchange a request and its reply, and each packet is printed. `cargo run --example talk`

use hyphaloom::config::{MAX_MTU, POOL_BYTES};
use hyphaloom::*;
use std::fmt::Write;

/// A stack and its pool.
struct Node {
    stack: Stack,
    pool: Pool,
}

impl Node {
    fn new(eid: u8) -> Result<Node> {
        Ok(Node { stack: Stack::new(Eid(eid), 12, 0)?, pool: [0; POOL_BYTES] })
    }

    fn fetch(&self, handle: &ReceiveHandle) -> Result<MctpMessage<'_>> {
        self.stack.fetch_message(&self.pool, handle)
    }
}

fn hex(packet: &[u8]) -> String {
    packet.iter().map(|byte| format!(" {byte:02X}")).collect()
}

/// Sends all packets of a payload to a node, and gives the handle of the message that they make there.
fn carry(mut send: Fragmenter, payload: &[u8], to: &mut Node, text: &mut String) -> Result<ReceiveHandle> {
    let mut out = [0; MAX_MTU];
    let mut handle = None;
    loop {
        match send.fragment(payload, &mut out) {
            SendOutput::Packet(packet) => {
                writeln!(text, " {}", hex(packet)).expect("a string takes all");
                handle = to.stack.receive(&mut to.pool, packet)?.map(|(_, handle)| handle);
            }
            SendOutput::Complete { .. } => return Ok(handle.expect("the last packet closes the message")),
            SendOutput::Error { err, .. } => return Err(err),
        }
    }
}

fn describe(at: &Node, message: &MctpMessage<'_>) -> String {
    let cookie = message.cookie.map_or(String::new(), |cookie| format!(", cookie {}", cookie.0));
    let body = String::from_utf8_lossy(message.payload);
    format!("{} has it from {}, type {}{cookie}: {body}\n", at.stack.eid().0, message.source.0, message.typ.0)
}

/// The whole exchange, as text.
pub fn exchange() -> Result<String> {
    let (mut board, mut blade) = (Node::new(8)?, Node::new(9)?);
    let mut text = String::new();

    let ask = board.stack.start_send(Eid(9), MsgType(1), None, true, MsgIC(false), None, Some(AppCookie(7)))?;
    text += &format!("8 asks 9, tag {}\n", ask.tag().tag().0);
    let handle = carry(ask, b"who is it?", &mut blade, &mut text)?;
    let question = blade.fetch(&handle)?;
    text += &describe(&blade, &question);

    let (peer, typ, tag) = (question.source, question.typ, Tag::Unowned(question.tag.tag()));
    blade.stack.finished_receive(handle)?;
    let reply = blade.stack.start_send(peer, typ, Some(tag), false, MsgIC(false), None, None)?;
    text += &format!("9 replies to {}, tag {}\n", reply.dest().0, reply.tag().tag().0);
    let handle = carry(reply, b"blade 41 in bay 7", &mut board, &mut text)?;
    text += &describe(&board, &board.fetch(&handle)?);
    board.stack.finished_receive(handle)?;
    Ok(text)
}

fn main() -> Result<()> {
    print!("{}", exchange()?);
    Ok(())
}
