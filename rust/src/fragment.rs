//! A message on its way out.

use crate::ffi::{self, FragmenterRow};
use crate::{AppCookie, Eid, Error, Tag, TagValue};
use core::fmt;

/// Cuts a message into packets. [`Stack::start_send`](crate::Stack::start_send) makes it.
pub struct Fragmenter {
    row: FragmenterRow,
}

impl Fragmenter {
    pub(crate) const fn new(row: FragmenterRow) -> Self {
        Fragmenter { row }
    }

    /// Writes the next packet to the front of `out`. Lend the same payload at every step.
    ///
    /// A packet has at most as many bytes as `out` and the send's MTU have; bytes of `out` past it stay. A later packet in a
    /// buffer of 4 bytes is a header alone.
    ///
    /// [`Error::NoSpace`]: `out` has under 5 bytes (first packet) or under 4 (later). [`Error::InvalidInput`]: the payload is
    /// shorter than what is sent already. A refusal writes nothing, and the step may be tried again.
    ///
    /// ```
    /// # use hyphaloom::*;
    /// # fn main() -> Result<()> {
    /// let mut stack = Stack::new(Eid(8), 255, 0)?;
    /// let mut send = stack.start_send(Eid(9), MsgType(1), None, true, MsgIC(false), Some(6), None)?;
    /// let payload = [0xAA, 0xBB, 0xCC];
    /// let mut out = [0; 6];
    /// assert_eq!(send.fragment(&payload, &mut out), SendOutput::Packet(&mut [1, 9, 8, 0x99, 1, 0xAA]));
    /// assert_eq!(send.fragment(&payload, &mut out), SendOutput::Packet(&mut [1, 9, 8, 0x69, 0xBB, 0xCC]));
    /// let tag = Tag::Owned(TagValue(1));
    /// assert_eq!(send.fragment(&payload, &mut out), SendOutput::Complete { tag, cookie: None });
    /// # Ok(())
    /// # }
    /// ```
    pub fn fragment<'f>(&mut self, payload: &[u8], out: &'f mut [u8]) -> SendOutput<'f> {
        match ffi::fragment(&mut self.row, payload, out) {
            Ok(0) => SendOutput::Complete { tag: self.tag(), cookie: self.cookie() },
            Ok(len) => SendOutput::Packet(&mut out[..len]),
            Err(err) => SendOutput::Error { err, cookie: self.cookie() },
        }
    }

    /// The tag of the message, also where the stack has chosen it.
    pub const fn tag(&self) -> Tag {
        let value = TagValue(self.row[4] as u8);
        match self.row[3] {
            0 => Tag::Unowned(value),
            _ => Tag::Owned(value),
        }
    }

    /// Where the message goes.
    pub const fn dest(&self) -> Eid {
        Eid(self.row[1] as u8)
    }

    /// The cookie given to `start_send`.
    pub const fn cookie(&self) -> Option<AppCookie> {
        ffi::cookie_of(self.row[10], self.row[11])
    }

    /// Whether the last packet has been written.
    pub const fn is_done(&self) -> bool {
        self.row[9] != 0
    }
}

impl fmt::Debug for Fragmenter {
    fn fmt(&self, f: &mut fmt::Formatter<'_>) -> fmt::Result {
        f.debug_struct("Fragmenter")
            .field("dest", &self.dest())
            .field("tag", &self.tag())
            .field("cookie", &self.cookie())
            .field("done", &self.is_done())
            .finish_non_exhaustive()
    }
}

/// What one step of a [`Fragmenter`] gives.
#[derive(Debug, PartialEq, Eq)]
pub enum SendOutput<'p> {
    /// A packet, in the front of the lent buffer.
    Packet(&'p mut [u8]),
    /// All is sent.
    Complete {
        /// The tag of the message.
        tag: Tag,
        /// The cookie given to `start_send`.
        cookie: Option<AppCookie>,
    },
    /// The step is refused and nothing has changed.
    Error {
        /// Why.
        err: Error,
        /// The cookie given to `start_send`.
        cookie: Option<AppCookie>,
    },
}
