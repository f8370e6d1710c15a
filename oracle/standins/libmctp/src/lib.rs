//! Stand-in for `libmctp`: the header of the rules' table.
#![no_std]
#![allow(clippy::result_unit_err)]

pub mod base_packet {
    /// The four header bytes as they stand on the wire.
    pub struct MCTPTransportHeader<B>(pub B);

    /// Getter and setter of `width` bits from bit `low` of byte `at`.
    macro_rules! field {
        ($get:ident $set:ident $at:literal $low:literal $width:literal) => {
            #[inline]
            pub fn $get(&self) -> u8 {
                self.0[$at] >> $low & MASK[$width]
            }

            #[inline]
            pub fn $set(&mut self, value: u8) {
                let kept = self.0[$at] & !(MASK[$width] << $low);
                self.0[$at] = kept | (value & MASK[$width]) << $low;
            }
        };
    }

    /// A mask of as many low bits as its place says.
    const MASK: [u8; 9] = [0, 1, 3, 7, 15, 31, 63, 127, 255];

    impl MCTPTransportHeader<[u8; 4]> {
        #[inline]
        pub fn new(version: u8) -> Self {
            let mut header = Self([0; 4]);
            header.set_hdr_version(version);
            header
        }

        /// Refuses another version; the reserved bits are ignored.
        #[inline]
        pub fn new_from_buf(bytes: [u8; 4], version: u8) -> Result<Self, ()> {
            let header = Self(bytes);
            if header.hdr_version() == version {
                Ok(header)
            } else {
                Err(())
            }
        }

        field!(hdr_version set_hdr_version 0 0 4);
        field!(dest_endpoint_id set_dest_endpoint_id 1 0 8);
        field!(source_endpoint_id set_source_endpoint_id 2 0 8);
        field!(som set_som 3 7 1);
        field!(eom set_eom 3 6 1);
        field!(pkt_seq set_pkt_seq 3 4 2);
        field!(to set_to 3 3 1);
        field!(msg_tag set_msg_tag 3 0 3);
    }
}
