//! Records as rows of 64-bit numbers, as the proved port's calls take them.

use crate::port::*;

pub type SendRow = [u64; 10];
pub type FragmenterRow = [u64; 13];
pub type MessageRow = [u64; 10];

/// Yes or no and a number, 0 where there is none.
fn maybe(value: Option<u64>) -> [u64; 2] {
    [u64::from(value.is_some()), value.unwrap_or(0)]
}

fn flag(word: u64) -> bool {
    assert!(word < 2, "{word} is neither yes nor no");
    word == 1
}

fn byte(word: u64) -> u8 {
    u8::try_from(word).unwrap_or_else(|_| panic!("{word} is no byte"))
}

fn maybe_of(has: u64, value: u64) -> Option<u64> {
    let has = flag(has);
    assert!(has || value == 0, "{value} where there is none");
    has.then_some(value)
}

/// Destination, type, kind of tag, tag, expires, IC, has an MTU, MTU, has a cookie, cookie.
pub fn send_row(send: &Send) -> SendRow {
    let (kind, tag) = match send.tag {
        TagWish::Fresh => (0, 0),
        TagWish::Owned(tag) => (1, tag),
        TagWish::Unowned(tag) => (2, tag),
    };
    let [has_mtu, mtu] = maybe(send.mtu.map(|m| m as u64));
    let [has_cookie, cookie] = maybe(send.cookie);
    let (dest, typ, tag) = (send.dest.into(), send.typ.into(), tag.into());
    [dest, typ, kind, tag, send.expires.into(), send.ic.into(), has_mtu, mtu, has_cookie, cookie]
}

pub fn send_of(row: &SendRow) -> Send {
    let tag = match row[2] {
        0 => TagWish::Fresh,
        1 => TagWish::Owned(byte(row[3])),
        2 => TagWish::Unowned(byte(row[3])),
        kind => panic!("no kind of tag: {kind}"),
    };
    Send {
        dest: byte(row[0]),
        typ: byte(row[1]),
        tag,
        expires: flag(row[4]),
        ic: flag(row[5]),
        mtu: maybe_of(row[6], row[7]).map(|m| m as usize),
        cookie: maybe_of(row[8], row[9]),
    }
}

/// Source, destination, type, TO, tag, IC, sequence, MTU, first, done, has a cookie, cookie, bytes sent.
pub fn fragmenter_row(f: &FragmenterView) -> FragmenterRow {
    let [has_cookie, cookie] = maybe(f.cookie);
    [
        f.source.into(),
        f.dest.into(),
        f.typ.into(),
        f.tag.owner.into(),
        f.tag.value.into(),
        f.ic.into(),
        f.sequence.into(),
        f.mtu as u64,
        f.first.into(),
        f.done.into(),
        has_cookie,
        cookie,
        f.used as u64,
    ]
}

pub fn fragmenter_of(row: &FragmenterRow) -> FragmenterView {
    FragmenterView {
        source: byte(row[0]),
        dest: byte(row[1]),
        typ: byte(row[2]),
        tag: Tag { owner: flag(row[3]), value: byte(row[4]) },
        ic: flag(row[5]),
        sequence: byte(row[6]),
        mtu: row[7] as usize,
        first: flag(row[8]),
        done: flag(row[9]),
        cookie: maybe_of(row[10], row[11]),
        used: row[12] as usize,
    }
}

/// Source, destination, TO, tag, type, IC, has a cookie, cookie, the body's place in the pool and its length.
pub fn message_row(m: &Message, index: usize) -> MessageRow {
    let [has_cookie, cookie] = maybe(m.cookie);
    [
        m.source.into(),
        m.dest.into(),
        m.tag.owner.into(),
        m.tag.value.into(),
        m.typ.into(),
        m.ic.into(),
        has_cookie,
        cookie,
        (BODY * index) as u64,
        m.body.len() as u64,
    ]
}

/// The body is taken from the pool.
pub fn message_of(row: &MessageRow, pool: &[u8]) -> Message {
    Message {
        source: byte(row[0]),
        dest: byte(row[1]),
        tag: Tag { owner: flag(row[2]), value: byte(row[3]) },
        typ: byte(row[4]),
        ic: flag(row[5]),
        cookie: maybe_of(row[6], row[7]),
        body: pool[row[8] as usize..][..row[9] as usize].to_vec(),
    }
}
