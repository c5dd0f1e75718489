//! The RTP header with its extensions.

use std::ptr;

use crate::error::{check, Result};
use crate::sys;

pub const EXTENSION_PROFILE_ONE_BYTE: u16 = 0xBEDE;
pub const EXTENSION_PROFILE_TWO_BYTE: u16 = 0x1000;
pub const EXTENSION_ID_RESERVED: u8 = 0xF;

/// The extension elements, in order.
#[repr(C)]
#[derive(Clone, Copy, Debug, Eq, PartialEq)]
pub struct Extensions {
    /// how many there are: 0 to 32
    pub count: usize,
    /// the id of each
    pub ids: [u8; 32],
    /// how many data bytes each has: 1,024 in all at most
    pub lens: [u16; 32],
    /// the data of all of them, packed in order
    pub bytes: [u8; 1024],
}

#[repr(C)]
#[derive(Clone, Copy, Debug, Eq, PartialEq)]
pub struct Header {
    /// 0 to 3; 2 for RTP
    pub version: u8,
    /// the packet ends in padding
    pub padding: bool,
    /// the header has an extension block
    pub extension: bool,
    pub marker: bool,
    /// 0 to 127
    pub payload_type: u8,
    pub sequence_number: u16,
    pub timestamp: u32,
    pub ssrc: u32,
    /// how many contributing sources there are: 0 to 15
    pub csrc_count: usize,
    pub csrc: [u32; 15],
    /// 0xBEDE: one-byte elements; 0x1000: two-byte elements; any other: one element of whole words
    pub extension_profile: u16,
    pub extensions: Extensions,
    /// zeros of the block: as many as were read, or as the size is to count: 0 to 262,140
    pub extensions_padding: usize,
}

/// A call on the parts of a header's record, which is not copied: its arrays are lent.
macro_rules! parts {
    ($header:expr, $call:ident($($more:expr),*)) => {{
        let header: &$crate::header::Header = $header;
        $crate::sys::$call(
            header.fixed(),
            header.csrc_count,
            &header.csrc,
            header.extension_profile,
            header.extensions.count,
            &header.extensions.ids,
            &header.extensions.lens,
            &header.extensions.bytes,
            header.extensions_padding,
            $($more),*
        )
    }};
}

/// A call on a header without CSRCs and elements, whose arrays do not count.
macro_rules! bare {
    ($header:expr, $call:ident($($more:expr),*)) => {{
        let header: &$crate::header::Header = $header;
        $crate::sys::$call(
            header.fixed(),
            header.extension_profile,
            header.extensions_padding,
            $($more),*
        )
    }};
}

pub(crate) use {bare, parts};

impl Default for Header {
    /// All zeros.
    fn default() -> Self {
        // SAFETY: the call takes nothing.
        unsafe { sys::rtp_header_default() }
    }
}

impl Header {
    /// The header in front of a packet, and the place of the payload behind it.
    // Inlined, so that a header without CSRCs and elements is made where it goes.
    #[inline(always)]
    pub fn unmarshal(packet: &[u8]) -> Result<(Header, usize)> {
        // SAFETY: the slice is lent for the call.
        let read = unsafe { sys::rtp_header_unmarshal_front(packet.as_ptr(), packet.len()) };
        check(read.number)?;
        if read.front.has_arrays() {
            return Header::unmarshal_arrays(packet);
        }
        Ok((Header::bare(&read.front), read.at))
    }

    /// A header with CSRCs or elements.
    // Apart, since both ways in one function cost a copy more.
    #[inline(never)]
    fn unmarshal_arrays(packet: &[u8]) -> Result<(Header, usize)> {
        let mut header = Header::bare(&sys::Front::NONE);
        let at = header.unmarshal_into(packet)?;
        Ok((header, at))
    }

    /// Reads the header in front of a packet into this record, so that none is copied: the place of the payload behind it. Beside an error
    /// the record is as it was.
    #[inline]
    pub fn unmarshal_into(&mut self, packet: &[u8]) -> Result<usize> {
        // SAFETY: the slice and the record's arrays are lent for the call, and overlap nothing.
        let read = unsafe {
            sys::rtp_header_unmarshal_parts(
                packet.as_ptr(),
                packet.len(),
                &mut self.csrc,
                &mut self.extensions.ids,
                &mut self.extensions.lens,
                &mut self.extensions.bytes,
            )
        };
        check(read.number)?;
        self.store(&read.front);
        Ok(read.at)
    }

    /// A header with this front, and zeros in its arrays.
    #[inline(always)]
    pub(crate) fn bare(front: &sys::Front) -> Header {
        let sys::Front { fixed, csrc_count, count, extensions_padding, extension_profile } = *front;
        Header {
            version: fixed.version,
            padding: fixed.padding,
            extension: fixed.extension,
            marker: fixed.marker,
            payload_type: fixed.payload_type,
            sequence_number: fixed.sequence_number,
            timestamp: fixed.timestamp,
            ssrc: fixed.ssrc,
            csrc_count,
            csrc: [0; 15],
            extension_profile,
            extensions: Extensions { count, ids: [0; 32], lens: [0; 32], bytes: [0; 1024] },
            extensions_padding,
        }
    }

    /// All but the arrays.
    #[inline]
    pub(crate) fn store(&mut self, front: &sys::Front) {
        let sys::Front { fixed, csrc_count, count, extensions_padding, extension_profile } = *front;
        // SAFETY: the first fields of a header are these (`declared`).
        unsafe { ptr::from_mut(self).cast::<sys::Fixed>().write(fixed) };
        self.csrc_count = csrc_count;
        self.extension_profile = extension_profile;
        self.extensions.count = count;
        self.extensions_padding = extensions_padding;
    }

    /// The first fields.
    #[inline]
    pub(crate) fn fixed(&self) -> sys::Fixed {
        // SAFETY: these are the first fields of a header (`declared`).
        unsafe { ptr::from_ref(self).cast::<sys::Fixed>().read() }
    }

    /// Whether it has neither CSRCs nor elements, so that its arrays do not count.
    #[inline]
    pub(crate) fn is_bare(&self) -> bool {
        self.csrc_count == 0 && self.extensions.count == 0
    }

    /// How many bytes [`marshal_to`](Header::marshal_to) asks of its buffer.
    #[inline]
    pub fn marshal_size(&self) -> Result<usize> {
        // SAFETY: the arrays are lent for the call.
        let size = unsafe { parts!(self, rtp_header_marshal_size_parts()) };
        check(size.number)?;
        Ok(size.bytes)
    }

    /// Writes the header to the front of the buffer: how many bytes it is. The rest of the buffer stays.
    #[inline]
    pub fn marshal_to(&self, buf: &mut [u8]) -> Result<usize> {
        let (at, len) = (buf.as_mut_ptr(), buf.len());
        // SAFETY: the buffer and the arrays are lent for the call, and the buffer overlaps nothing.
        let written = unsafe {
            if self.is_bare() {
                bare!(self, rtp_header_marshal_bare(at, len))
            } else {
                parts!(self, rtp_header_marshal_parts(at, len))
            }
        };
        check(written.number)?;
        Ok(written.bytes)
    }

    /// How many bytes the block's elements are, without its padding.
    #[inline]
    pub fn get_extension_payload_len(&self) -> Result<usize> {
        // SAFETY: the arrays are lent for the call.
        let len = unsafe { parts!(self, rtp_header_get_extension_payload_len_parts()) };
        check(len.number)?;
        Ok(len.bytes)
    }

    /// Replaces the first element of that id, or appends one. The first set of a header picks the profile by the size.
    pub fn set_extension(&mut self, id: u8, payload: &[u8]) -> Result<()> {
        // SAFETY: the slice is lent for the call.
        let changed =
            unsafe { sys::rtp_header_set_extension(*self, id, payload.as_ptr(), payload.len()) };
        changed.refused.check()?;
        *self = changed.header;
        Ok(())
    }

    /// Deletes the first element of that id.
    pub fn del_extension(&mut self, id: u8) -> Result<()> {
        // SAFETY: the record goes by value.
        let changed = unsafe { sys::rtp_header_del_extension(*self, id) };
        changed.refused.check()?;
        *self = changed.header;
        Ok(())
    }

    /// The data of the first element of that id.
    pub fn get_extension(&self, id: u8) -> Result<Option<&[u8]>> {
        // SAFETY: the arrays are lent for the call.
        let element = unsafe { parts!(self, rtp_header_get_extension_parts(id)) };
        element.refused.check()?;
        Ok(element.present.then(|| &self.extensions.bytes[element.at..element.at + element.len]))
    }

    /// The ids of all elements, in order.
    pub fn get_extension_ids(&self) -> Result<Vec<u8>> {
        // SAFETY: the arrays are lent for the call.
        let listed = unsafe { parts!(self, rtp_header_get_extension_ids_parts()) };
        listed.refused.check()?;
        Ok(listed.ids[..listed.count].to_vec())
    }

    /// The contributing sources.
    pub fn csrcs(&self) -> &[u32] {
        &self.csrc[..self.csrc_count.min(self.csrc.len())]
    }
}
