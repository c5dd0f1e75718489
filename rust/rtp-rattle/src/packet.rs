//! The RTP packet with its padding.

use crate::error::{check, Result};
use crate::header::{bare, parts, Header};
use crate::sys;

/// A header and the payload behind it, without padding.
#[derive(Clone, Copy, Debug, Default, Eq, PartialEq)]
pub struct Packet<'a> {
    pub header: Header,
    pub payload: &'a [u8],
}

impl<'a> Packet<'a> {
    /// The packet that these bytes are; its payload is a part of them.
    #[inline(always)]
    pub fn unmarshal(raw_packet: &'a [u8]) -> Result<Packet<'a>> {
        // SAFETY: the slice is lent for the call.
        let read =
            unsafe { sys::rtp_packet_unmarshal_front(raw_packet.as_ptr(), raw_packet.len()) };
        check(read.number)?;
        if read.front.has_arrays() {
            return Packet::unmarshal_arrays(raw_packet);
        }
        let payload = &raw_packet[read.at..read.at + read.len];
        Ok(Packet { header: Header::bare(&read.front), payload })
    }

    /// A packet whose header has CSRCs or elements.
    #[inline(never)]
    fn unmarshal_arrays(raw_packet: &'a [u8]) -> Result<Packet<'a>> {
        let mut packet = Packet { header: Header::bare(&sys::Front::NONE), payload: &[] };
        packet.unmarshal_into(raw_packet)?;
        Ok(packet)
    }

    /// Reads the packet that these bytes are into this one, so that no record is copied. Beside an error it is as it was.
    #[inline]
    pub fn unmarshal_into(&mut self, raw_packet: &'a [u8]) -> Result<()> {
        let header = &mut self.header;
        // SAFETY: the slice and the record's arrays are lent for the call, and overlap nothing.
        let read = unsafe {
            sys::rtp_packet_unmarshal_parts(
                raw_packet.as_ptr(),
                raw_packet.len(),
                &mut header.csrc,
                &mut header.extensions.ids,
                &mut header.extensions.lens,
                &mut header.extensions.bytes,
            )
        };
        check(read.number)?;
        header.store(&read.front);
        self.payload = &raw_packet[read.at..read.at + read.len];
        Ok(())
    }

    /// How many bytes [`marshal_to`](Packet::marshal_to) asks of its buffer.
    #[inline]
    pub fn marshal_size(&self) -> Result<usize> {
        let (at, len) = (self.payload.as_ptr(), self.payload.len());
        // SAFETY: the slice and the arrays are lent for the call.
        let size = unsafe { parts!(&self.header, rtp_packet_marshal_size_parts(at, len)) };
        check(size.number)?;
        Ok(size.bytes)
    }

    /// Writes the packet to the front of the buffer, padded where its header says so: how many bytes it is. The rest of the buffer stays.
    #[inline]
    pub fn marshal_to(&self, buf: &mut [u8]) -> Result<usize> {
        let Packet { header, payload } = self;
        let (from, more) = (payload.as_ptr(), payload.len());
        let (at, len) = (buf.as_mut_ptr(), buf.len());
        // SAFETY: the slices and the arrays are lent for the call, and the buffer overlaps nothing.
        let written = unsafe {
            if header.is_bare() {
                bare!(header, rtp_packet_marshal_bare(from, more, at, len))
            } else {
                parts!(header, rtp_packet_marshal_parts(from, more, at, len))
            }
        };
        check(written.number)?;
        Ok(written.bytes)
    }
}
