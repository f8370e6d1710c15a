//! Stand-in for `mctp`: the types and constants of the rules.
#![no_std]

pub const MCTP_ADDR_NULL: Eid = Eid(0);
pub const MCTP_ADDR_ANY: Eid = Eid(255);
pub const MCTP_HEADER_VERSION_1: u8 = 1;
pub const MCTP_SEQ_MASK: u8 = 3;
pub const MCTP_TAG_MAX: u8 = 7;

#[derive(Debug, Clone, Copy, PartialEq, Eq)]
pub enum Error {
    InvalidInput,
    NoSpace,
    BadArgument,
    TagUnavailable,
    Unreachable,
}

pub type Result<T> = core::result::Result<T, Error>;

#[derive(Debug, Clone, Copy, PartialEq, Eq, Hash)]
pub struct Eid(pub u8);

impl Eid {
    /// An EID that a stack may be given: 8 to 254.
    pub fn new_normal(eid: u8) -> Result<Eid> {
        if (8..=254).contains(&eid) {
            Ok(Eid(eid))
        } else {
            Err(Error::InvalidInput)
        }
    }
}

impl core::fmt::Display for Eid {
    fn fmt(&self, f: &mut core::fmt::Formatter<'_>) -> core::fmt::Result {
        write!(f, "{}", self.0)
    }
}

#[derive(Debug, Clone, Copy, PartialEq, Eq, Hash)]
pub struct TagValue(pub u8);

#[derive(Debug, Clone, Copy, PartialEq, Eq, Hash)]
pub enum Tag {
    Owned(TagValue),
    Unowned(TagValue),
}

impl Tag {
    #[inline]
    pub fn tag(&self) -> TagValue {
        match *self {
            Tag::Owned(value) | Tag::Unowned(value) => value,
        }
    }

    #[inline]
    pub fn is_owner(&self) -> bool {
        matches!(self, Tag::Owned(_))
    }
}

#[derive(Debug, Clone, Copy, PartialEq, Eq, Hash)]
pub struct MsgType(pub u8);

#[derive(Debug, Clone, Copy, PartialEq, Eq, Hash)]
pub struct MsgIC(pub bool);

/// Byte 4 of an opening packet.
#[inline]
pub fn encode_type_ic(typ: MsgType, ic: MsgIC) -> u8 {
    (ic.0 as u8) << 7 | typ.0 & 0x7f
}

#[inline]
pub fn decode_type_ic(byte: u8) -> (MsgType, MsgIC) {
    (MsgType(byte & 0x7f), MsgIC(byte & 0x80 != 0))
}
