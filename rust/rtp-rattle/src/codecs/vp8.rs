//! VP8 (RFC 7741).

use super::Payloads;
use crate::error::Result;
use crate::sys;

/// Cuts frames into payloads.
#[repr(C)]
#[derive(Clone, Copy, Debug, Default, Eq, PartialEq)]
pub struct Vp8Payloader {
    /// whether each payload shows the picture id
    pub enable_picture_id: bool,
    /// the next frame's id, 0 to 32,767; it advances also where it is not shown
    pub picture_id: u16,
}

impl Vp8Payloader {
    /// The payloads of a frame, each of at most `mtu` bytes. They are written one behind the other to `out`, and their ends to `ends`.
    pub fn payload<'a>(
        &mut self,
        mtu: usize,
        frame: &[u8],
        out: &'a mut [u8],
        ends: &'a mut [usize],
    ) -> Result<Payloads<'a>> {
        // SAFETY: the slices are lent for the call, and those that are written overlap nothing.
        let sent = unsafe {
            sys::rtp_vp8_payload(
                *self,
                mtu,
                frame.as_ptr(),
                frame.len(),
                out.as_mut_ptr(),
                out.len(),
                ends.as_mut_ptr(),
                ends.len(),
            )
        };
        sent.refused.check()?;
        *self = sent.payloader;
        Ok(Payloads::new(&out[..sent.bytes], &ends[..sent.packets]))
    }
}

/// The fields of the descriptors read so far: a field that a packet does not have keeps its value.
#[repr(C)]
#[derive(Clone, Copy, Debug, Default, Eq, PartialEq)]
pub struct Vp8Packet {
    /// 1 where the extension octet is there
    pub x: u8,
    /// 1 where the frame can be discarded
    pub n: u8,
    /// 1 at the start of a VP8 partition
    pub s: u8,
    /// the partition's index, 0 to 7
    pub pid: u8,
    /// 1 where the picture id is there; any other number counts as 0, here and in `l`, `t`, `k`
    pub i: u8,
    /// 1 where `tl0_pic_idx` is there
    pub l: u8,
    /// 1 where `tid` and `y` are there
    pub t: u8,
    /// 1 where `key_idx` is there
    pub k: u8,
    /// 7 or 15 bits: 0 to 32,767
    pub picture_id: u16,
    /// index of the temporal base layer, 0 to 255
    pub tl0_pic_idx: u8,
    /// temporal layer, 0 to 3
    pub tid: u8,
    /// layer sync bit
    pub y: u8,
    /// index of the temporal key frame, 0 to 31
    pub key_idx: u8,
}

impl Vp8Packet {
    /// Reads the descriptor in front of a payload: the VP8 payload behind it.
    ///
    /// [`Error::ErrShortPacket`](crate::Error::ErrShortPacket) on a payload of 4 bytes or more leaves the fields read so far; any
    /// other refusal leaves them as they were.
    pub fn depacketize<'a>(&mut self, payload: &'a [u8]) -> Result<&'a [u8]> {
        // SAFETY: the slice is lent for the call.
        let read = unsafe { sys::rtp_vp8_depacketize(*self, payload.as_ptr(), payload.len()) };
        *self = read.packet;
        read.refused.check()?;
        Ok(&payload[read.at..])
    }

    /// Whether a payload begins a VP8 partition.
    pub fn is_partition_head(payload: &[u8]) -> Result<bool> {
        // SAFETY: the slice is lent for the call.
        let test = unsafe { sys::rtp_vp8_is_partition_head(payload.as_ptr(), payload.len()) };
        test.refused.check()?;
        Ok(test.holds)
    }

    /// Whether a packet with this marker is the last of its frame.
    pub fn is_partition_tail(marker: bool) -> bool {
        // SAFETY: the call takes no slice.
        unsafe { sys::rtp_vp8_is_partition_tail(marker) }
    }
}
