//! Numbers that must not be mixed up, each a type of its own.

use crate::{Error, Result};

/// An endpoint ID.
#[derive(Debug, Clone, Copy, PartialEq, Eq, PartialOrd, Ord, Hash)]
pub struct Eid(pub u8);

impl Eid {
    /// As a destination: whoever gets the packet.
    pub const NULL: Eid = Eid(0);

    /// Everyone; no packet may come from it.
    pub const ANY: Eid = Eid(255);

    /// An EID that an endpoint can have as its own, 8 to 254; any other is [`Error::InvalidInput`].
    ///
    /// ```
    /// use hyphaloom::{Eid, Error};
    /// assert_eq!(Eid::new_normal(8), Ok(Eid(8)));
    /// assert_eq!(Eid::new_normal(7), Err(Error::InvalidInput));
    /// ```
    pub const fn new_normal(eid: u8) -> Result<Eid> {
        match eid {
            8..=254 => Ok(Eid(eid)),
            _ => Err(Error::InvalidInput),
        }
    }
}

/// The number of a tag, 0 to 7 on the wire.
#[derive(Debug, Clone, Copy, PartialEq, Eq, PartialOrd, Ord, Hash)]
pub struct TagValue(pub u8);

/// A tag, and whose it is.
#[derive(Debug, Clone, Copy, PartialEq, Eq, Hash)]
pub enum Tag {
    /// The sender's own (TO=1): a request.
    Owned(TagValue),
    /// The receiver's (TO=0): a reply.
    Unowned(TagValue),
}

impl Tag {
    /// The number.
    pub const fn tag(&self) -> TagValue {
        match self {
            Tag::Owned(tag) | Tag::Unowned(tag) => *tag,
        }
    }

    /// Whether it is the sender's own.
    pub const fn is_owner(&self) -> bool {
        matches!(self, Tag::Owned(_))
    }
}

/// A message type, 0 to 127 on the wire.
#[derive(Debug, Clone, Copy, PartialEq, Eq, PartialOrd, Ord, Hash)]
pub struct MsgType(pub u8);

/// The integrity check bit. The check itself is the application's.
#[derive(Debug, Clone, Copy, PartialEq, Eq, PartialOrd, Ord, Hash)]
pub struct MsgIC(pub bool);

/// A number by which the application recognises its replies.
#[derive(Debug, Clone, Copy, PartialEq, Eq, PartialOrd, Ord, Hash)]
#[repr(transparent)]
pub struct AppCookie(pub u64);
