//! The stack, the messages that it hands out and their handles.

use crate::config::STATE_BYTES;
use crate::ffi::{HandleRow, MessageRow, SendRow, State};
#[cfg(doc)]
use crate::{
    config::{DEFERRED_TIMEOUT, FLOW_EXPIRY_TIMEOUT, POOL_BYTES, REASSEMBLY_EXPIRY_TIMEOUT, TIMEOUT_INTERVAL},
    Error,
};
use crate::{AppCookie, Eid, Fragmenter, MsgIC, MsgType, NotKept, Result, Tag, TagValue};
use core::fmt;

/// An MCTP stack without IO.
///
/// Bodies of messages that come in lie in a pool that the caller lends, of at least [`POOL_BYTES`] bytes. Lend the same pool
/// to every [`receive`](Self::receive) and [`fetch_message`](Self::fetch_message) of a stack, and write nothing to it: a
/// message shows what the pool holds. Any other pool is safe to lend, but its bytes are not the message.
///
/// A refusal changes no byte of any buffer. It leaves the stack as it was too, except for what the call names and for the
/// counter that orders events.
pub struct Stack {
    state: State,
}

impl Stack {
    /// A new stack. `own_eid` may be any EID, [`Eid::NULL`] too. `mtu` is for sends that name none.
    ///
    /// [`Error::BadArgument`]: MTU under 5.
    pub fn new(own_eid: Eid, mtu: usize, now_millis: u64) -> Result<Stack> {
        Ok(Stack { state: State::new(own_eid.0, mtu, now_millis)? })
    }

    /// The stack's bytes, to keep over a warm start. [`from_bytes`](Self::from_bytes) makes a stack of them again.
    ///
    /// Keep the pool with them: bodies lie there. Keep the numbers of the handles that are out, or their slots stay taken, and
    /// let the clock go on from where it was, or [`update`](Self::update) refuses it.
    pub fn as_bytes(&self) -> &[u8; STATE_BYTES] {
        self.state.bytes()
    }

    /// The stack whose bytes these are.
    ///
    /// [`NotKept`]: the bytes are no state, and the calls would promise nothing on them. This is no checksum: where changed bytes
    /// make another state, it is taken. Nor does it tell a warm start from a cold one: bytes that are all 0 are a stack's, with
    /// own EID 0 and MTU 0, on which no send succeeds.
    ///
    /// ```
    /// # use hyphaloom::*;
    /// # fn main() -> Result<()> {
    /// let mut stack = Stack::new(Eid(8), 255, 0)?;
    /// stack.start_send(Eid(9), MsgType(1), None, true, MsgIC(false), None, None)?;
    /// let mut kept = *stack.as_bytes();
    /// let again = Stack::from_bytes(kept).expect("a stack's bytes");
    /// assert_eq!((again.eid(), again.free_tags(Eid(9))), (Eid(8), 7));
    /// kept[1] = 8;
    /// assert_eq!(Stack::from_bytes(kept).err(), Some(NotKept));
    /// # Ok(())
    /// # }
    /// ```
    pub fn from_bytes(bytes: [u8; STATE_BYTES]) -> core::result::Result<Stack, NotKept> {
        State::from_bytes(bytes).map(|state| Stack { state }).ok_or(NotKept)
    }

    /// Whether the stack's bytes are still a state. They always are, unless something outside this crate has written them. A
    /// board that suspects its memory asks this before any other call.
    pub fn is_kept(&self) -> bool {
        self.state.is_kept()
    }

    /// Takes the clock and gives `(millis, expired)`: after how long to call again, at most [`TIMEOUT_INTERVAL`], and whether
    /// something has expired.
    ///
    /// When the time that the last call gave has passed, and in the first call, it drops messages older than
    /// [`REASSEMBLY_EXPIRY_TIMEOUT`] (incomplete ones, counted from their opening packet; whole ones with no handle out, from
    /// their closing packet) and flows with expiry older than [`FLOW_EXPIRY_TIMEOUT`], counted from their send.
    ///
    /// [`Error::InvalidInput`]: the clock is below the last one.
    ///
    /// ```
    /// # use hyphaloom::*;
    /// # fn main() -> Result<()> {
    /// let mut stack = Stack::new(Eid(8), 255, 0)?;
    /// assert_eq!(stack.update(1000), Ok((100, false)));
    /// assert_eq!(stack.update(1040), Ok((60, false)));
    /// assert_eq!(stack.update(1039), Err(Error::InvalidInput));
    /// # Ok(())
    /// # }
    /// ```
    pub fn update(&mut self, now_millis: u64) -> Result<(u64, bool)> {
        let [millis, expired] = self.state.update(now_millis)?;
        Ok((millis, expired != 0))
    }

    /// Starts a send. The [`Fragmenter`] cuts it into packets.
    ///
    /// - `tag`: `None` takes a free one and owns it; `Some(Tag::Owned(_))` is a request under that tag, `Some(Tag::Unowned(_))`
    ///   a reply under the peer's.
    /// - A request puts up a flow, which lets its reply in and gives it `cookie`. With `tag_expires` the flow expires. An owned
    ///   tag whose flow stands without expiry is used again; that flow keeps its first cookie.
    /// - `mtu`: the smaller of this and the stack's MTU holds.
    ///
    /// [`Error::InvalidInput`]: type above 127 or tag above 7; nothing has changed.
    /// [`Error::TagUnavailable`]: no tag is free for this peer, or 64 flows stand; the counter of fresh tags has moved.
    /// [`Error::BadArgument`]: the owned tag's flow stands with an expiry. Or the smaller MTU is not 5 to 255; the flow stands
    /// and the sequence has moved.
    #[allow(clippy::too_many_arguments)]
    pub fn start_send(
        &mut self,
        dest: Eid,
        typ: MsgType,
        tag: Option<Tag>,
        tag_expires: bool,
        ic: MsgIC,
        mtu: Option<usize>,
        cookie: Option<AppCookie>,
    ) -> Result<Fragmenter> {
        let (kind, tag) = tag_words(tag);
        let send: SendRow = [
            dest.0.into(),
            typ.0.into(),
            kind,
            tag,
            tag_expires.into(),
            ic.0.into(),
            mtu.is_some().into(),
            mtu.unwrap_or(0) as u64,
            cookie.is_some().into(),
            cookie.map_or(0, |c| c.0),
        ];
        self.state.start_send(&send).map(Fragmenter::new)
    }

    /// Takes a packet. If it closes a message, gives that message and its handle.
    ///
    /// Give every handle back, with [`finished_receive`](Self::finished_receive) or [`return_handle`](Self::return_handle), or
    /// its slot stays taken. A reply's flow goes when the reply is whole.
    ///
    /// [`Error::PoolShort`]: pool under 4,128 bytes; tested first.
    /// [`Error::NoSpace`]: no slot collects this packet's key and none is empty; tested before the header. Or the body grows
    /// past 1,032 bytes; the slot is freed.
    /// [`Error::InvalidInput`]: for a message that no slot collects, a bad header, a destination neither own nor 0, source 255,
    /// or no SOM. Or SOM with 4 bytes only, or not the sequence expected; the slot is freed.
    /// [`Error::Unreachable`]: a reply that no slot collects and no flow waits for.
    ///
    /// ```
    /// # use hyphaloom::*;
    /// # fn main() -> Result<()> {
    /// let mut stack = Stack::new(Eid(8), 255, 0)?;
    /// let mut pool: Pool = [0; config::POOL_BYTES];
    /// let (message, handle) = stack.receive(&mut pool, &[1, 8, 9, 0xC9, 1, 0x2A])?.expect("a whole message");
    /// assert_eq!((message.source, message.typ, message.payload), (Eid(9), MsgType(1), &[0x2A][..]));
    /// stack.finished_receive(handle)?;
    /// # Ok(())
    /// # }
    /// ```
    pub fn receive<'a>(&mut self, pool: &'a mut [u8], packet: &[u8]) -> Result<Option<(MctpMessage<'a>, ReceiveHandle)>> {
        let Some(handle) = ReceiveHandle::from_row(self.state.receive(pool, packet)?) else {
            return Ok(None);
        };
        let message = self.fetch_message(pool, &handle)?;
        Ok(Some((message, handle)))
    }

    /// The message that a handle names. Changes nothing.
    ///
    /// [`Error::PoolShort`]: pool under 4,128 bytes; tested first. [`Error::BadArgument`]: not a handle that is out.
    pub fn fetch_message<'a>(&self, pool: &'a [u8], handle: &ReceiveHandle) -> Result<MctpMessage<'a>> {
        let row = self.state.fetch_message(pool, handle.index, handle.issue)?;
        Ok(MctpMessage::from_row(&row, pool))
    }

    /// Gives a handle back and drops its message.
    ///
    /// [`Error::BadArgument`]: not a handle that is out.
    pub fn finished_receive(&mut self, handle: ReceiveHandle) -> Result<()> {
        self.state.finished_receive(handle.index, handle.issue)
    }

    /// Gives a handle back and keeps its message for [`get_deferred`](Self::get_deferred), until it is [`DEFERRED_TIMEOUT`] old.
    ///
    /// [`Error::BadArgument`]: not a handle that is out.
    pub fn return_handle(&mut self, handle: ReceiveHandle) -> Result<()> {
        self.state.return_handle(handle.index, handle.issue)
    }

    /// The earliest message kept from that source under that tag; its handle is now out. A tag above 7 finds none.
    ///
    /// Messages whose handle is out already are passed over.
    pub fn get_deferred(&mut self, source: Eid, tag: Tag) -> Option<ReceiveHandle> {
        ReceiveHandle::from_row(self.state.get_deferred(source.0, tag.is_owner(), tag.tag().0))
    }

    /// The earliest message kept whose cookie is one of the list; its handle is now out.
    ///
    /// Messages whose handle is out already are passed over.
    pub fn get_deferred_bycookie(&mut self, cookies: &[AppCookie]) -> Option<ReceiveHandle> {
        ReceiveHandle::from_row(self.state.get_deferred_bycookie(cookies))
    }

    /// Changes the cookie of the message that a handle names.
    ///
    /// [`Error::BadArgument`]: not a handle that is out.
    pub fn set_cookie(&mut self, handle: &ReceiveHandle, cookie: Option<AppCookie>) -> Result<()> {
        self.state.set_cookie(handle.index, handle.issue, cookie)
    }

    /// Sets the own EID.
    ///
    /// [`Error::InvalidInput`]: not 8 to 254.
    pub fn set_eid(&mut self, eid: u8) -> Result<()> {
        self.state.set_eid(eid)
    }

    /// The own EID.
    pub fn eid(&self) -> Eid {
        Eid(self.state.eid())
    }

    /// Whether the packet has a good header and its destination is the own EID or 0.
    pub fn is_local_dest(&self, packet: &[u8]) -> bool {
        self.state.is_local_dest(packet)
    }

    /// Drops the flow of a request to `source` under `tag`, if there is one, and what has come in of its reply.
    ///
    /// [`Error::InvalidInput`]: tag above 7. [`Error::BadArgument`]: a handle of such a reply is out; replies in lower slots are
    /// gone, the flow stands.
    pub fn cancel_flow(&mut self, source: Eid, tag: TagValue) -> Result<()> {
        self.state.cancel_flow(source.0, tag.0)
    }

    /// How many of the eight tags are free for a peer.
    ///
    /// ```
    /// # use hyphaloom::*;
    /// # fn main() -> Result<()> {
    /// let mut stack = Stack::new(Eid(8), 255, 0)?;
    /// stack.start_send(Eid(9), MsgType(1), None, true, MsgIC(false), None, None)?;
    /// assert_eq!((stack.free_tags(Eid(9)), stack.free_tags(Eid(10))), (7, 8));
    /// # Ok(())
    /// # }
    /// ```
    pub fn free_tags(&self, peer: Eid) -> u8 {
        self.state.free_tags(peer.0)
    }
}

impl fmt::Debug for Stack {
    fn fmt(&self, f: &mut fmt::Formatter<'_>) -> fmt::Result {
        f.debug_struct("Stack").field("eid", &self.eid()).finish_non_exhaustive()
    }
}

/// The kind of tag and the tag, as a send's row has them.
fn tag_words(tag: Option<Tag>) -> (u64, u64) {
    match tag {
        None => (0, 0),
        Some(Tag::Owned(value)) => (1, value.0.into()),
        Some(Tag::Unowned(value)) => (2, value.0.into()),
    }
}

/// Names a message that has come in.
///
/// It has a slot's index and an issue number, which is new each time that a handle goes out, so an old handle is refused with
/// [`Error::BadArgument`] and never touches a later message. It is neither `Copy` nor `Clone`: what gives it back takes it, and
/// the compiler finds most uses of an old one. Firmware that keeps handles as numbers uses [`from_numbers`](Self::from_numbers),
/// and any numbers are safe there.
///
/// A handle means something only to the stack that gave it. Another stack may have one of the same numbers out.
#[must_use = "give the handle back, or its slot stays taken"]
#[derive(Debug, PartialEq, Eq, Hash)]
pub struct ReceiveHandle {
    index: usize,
    issue: u64,
}

impl ReceiveHandle {
    /// The handle of these numbers, [`index`](Self::index) and [`issue`](Self::issue).
    pub const fn from_numbers(index: usize, issue: u64) -> ReceiveHandle {
        ReceiveHandle { index, issue }
    }

    /// The slot, 0 to 3.
    pub const fn index(&self) -> usize {
        self.index
    }

    /// The issue number, from 1 on.
    pub const fn issue(&self) -> u64 {
        self.issue
    }

    fn from_row([index, issue]: HandleRow) -> Option<ReceiveHandle> {
        (issue != 0).then_some(ReceiveHandle { index: index as usize, issue })
    }
}

/// A message that has come in. Its payload lies in the lent pool.
#[derive(Clone, PartialEq, Eq)]
pub struct MctpMessage<'a> {
    /// Who sent it.
    pub source: Eid,
    /// Whom it was sent to: the own EID at that time, or [`Eid::NULL`].
    pub dest: Eid,
    /// Its tag: owned for a request, unowned for a reply.
    pub tag: Tag,
    /// Its type.
    pub typ: MsgType,
    /// Its integrity check bit.
    pub ic: MsgIC,
    /// Its body, without the type byte.
    pub payload: &'a [u8],
    /// For a reply, the cookie that its request gave to [`Stack::start_send`]; or what [`Stack::set_cookie`] has set.
    pub cookie: Option<AppCookie>,
}

impl<'a> MctpMessage<'a> {
    fn from_row(row: &MessageRow, pool: &'a [u8]) -> Self {
        let &[source, dest, owner, tag, typ, ic, has_cookie, cookie, at, len] = row;
        let value = TagValue(tag as u8);
        MctpMessage {
            source: Eid(source as u8),
            dest: Eid(dest as u8),
            tag: if owner != 0 { Tag::Owned(value) } else { Tag::Unowned(value) },
            typ: MsgType(typ as u8),
            ic: MsgIC(ic != 0),
            payload: &pool[at as usize..][..len as usize],
            cookie: crate::ffi::cookie_of(has_cookie, cookie),
        }
    }
}

impl fmt::Debug for MctpMessage<'_> {
    fn fmt(&self, f: &mut fmt::Formatter<'_>) -> fmt::Result {
        f.debug_struct("MctpMessage")
            .field("source", &self.source)
            .field("dest", &self.dest)
            .field("tag", &self.tag)
            .field("typ", &self.typ)
            .field("ic", &self.ic)
            .field("cookie", &self.cookie)
            .field("payload length", &self.payload.len())
            .finish_non_exhaustive()
    }
}
