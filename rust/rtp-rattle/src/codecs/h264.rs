//! H.264 (RFC 6184).

use std::fmt;

use super::Payloads;
use crate::error::Result;
use crate::sys;

/// Cuts frames into payloads. A parameter set waits in it until a unit is sent behind the pair.
#[derive(Clone)]
pub struct H264Payloader {
    /// how many bytes in front of each buffer are a set that waits, 0 to 1,024
    lens: sys::LentPayloader,
    /// of the sequence parameter set: lent to each call, so that none copies it
    sps: [u8; 1024],
    /// of the picture parameter set, likewise
    pps: [u8; 1024],
}

impl Default for H264Payloader {
    fn default() -> Self {
        Self::new()
    }
}

impl fmt::Debug for H264Payloader {
    fn fmt(&self, f: &mut fmt::Formatter<'_>) -> fmt::Result {
        f.debug_struct("H264Payloader")
            .field("sps_nalu", &self.sps_nalu())
            .field("pps_nalu", &self.pps_nalu())
            .finish()
    }
}

impl H264Payloader {
    /// A sender with nothing saved.
    pub fn new() -> Self {
        H264Payloader {
            lens: sys::LentPayloader { sps_len: 0, pps_len: 0 },
            sps: [0; 1024],
            pps: [0; 1024],
        }
    }

    /// The sequence parameter set that waits, or nothing.
    pub fn sps_nalu(&self) -> &[u8] {
        &self.sps[..self.lens.sps_len]
    }

    /// The picture parameter set that waits, or nothing.
    pub fn pps_nalu(&self) -> &[u8] {
        &self.pps[..self.lens.pps_len]
    }

    /// The payloads of a frame, each of at most `mtu` bytes. They are written one behind the other to `out`, and their ends to `ends`.
    /// Beside them, what was dropped for the mtu.
    pub fn payload<'a>(
        &mut self,
        mtu: usize,
        frame: &[u8],
        out: &'a mut [u8],
        ends: &'a mut [usize],
    ) -> Result<Sent<'a>> {
        // SAFETY: the slices and the sets' buffers are lent for the call, and those that are written overlap nothing.
        let sent = unsafe {
            sys::rtp_h264_lent_payload(
                self.lens,
                &mut self.sps,
                &mut self.pps,
                mtu,
                frame.as_ptr(),
                frame.len(),
                out.as_mut_ptr(),
                out.len(),
                ends.as_mut_ptr(),
                ends.len(),
            )
        };
        sent.refused.check()?;
        self.lens = sent.sender;
        Ok(Sent {
            payloads: Payloads::new(&out[..sent.bytes], &ends[..sent.packets]),
            units_dropped: sent.units_dropped,
            pairs_dropped: sent.pairs_dropped,
        })
    }
}

/// The payloads of a frame, in order, and how much of it was dropped for the mtu.
#[derive(Clone, Debug)]
pub struct Sent<'a> {
    payloads: Payloads<'a>,
    units_dropped: usize,
    pairs_dropped: usize,
}

impl Sent<'_> {
    /// How many units were dropped for the mtu: one that does not fit an mtu under 3 cannot go in fragments either.
    pub fn units_dropped(&self) -> usize {
        self.units_dropped
    }

    /// How many pairs of parameter sets were dropped for the mtu: their STAP-A does not fit, and they are forgotten.
    pub fn pairs_dropped(&self) -> usize {
        self.pairs_dropped
    }
}

impl<'a> Iterator for Sent<'a> {
    type Item = &'a [u8];

    fn next(&mut self) -> Option<&'a [u8]> {
        self.payloads.next()
    }

    fn size_hint(&self) -> (usize, Option<usize>) {
        self.payloads.size_hint()
    }
}

impl ExactSizeIterator for Sent<'_> {}

/// Reads payloads. It keeps the fragments of an unfinished unit in a gather buffer of its own.
#[derive(Clone)]
pub struct H264Packet {
    record: sys::H264Packet,
    gather: Vec<u8>,
    body: sys::Body,
}

impl fmt::Debug for H264Packet {
    fn fmt(&self, f: &mut fmt::Formatter<'_>) -> fmt::Result {
        f.debug_struct("H264Packet")
            .field("is_avc", &self.record.is_avc)
            .field("gathered", &self.gathered())
            .finish()
    }
}

impl H264Packet {
    /// A reader with room for `room` bytes of fragments: the longest unit's length less one. Units are handed out behind a
    /// 4-byte length where `is_avc`, else behind a start code.
    pub fn new(is_avc: bool, room: usize) -> Self {
        H264Packet {
            record: sys::H264Packet { is_avc, gathered: 0 },
            gather: vec![0; room],
            body: sys::Body { lies_in: 0, at: 0, len: 0 },
        }
    }

    /// What was gathered of an unfinished unit.
    pub fn gathered(&self) -> &[u8] {
        &self.gather[..self.record.gathered]
    }

    /// Reads a payload: the units that it completes, as they were written to the front of `out`.
    pub fn depacketize<'a>(&mut self, payload: &[u8], out: &'a mut [u8]) -> Result<&'a [u8]> {
        // SAFETY: the slices are lent for the call, and those that are written overlap nothing.
        let read = unsafe {
            sys::rtp_h264_depacketize(
                self.record,
                payload.as_ptr(),
                payload.len(),
                self.gather.as_mut_ptr(),
                self.gather.len(),
                out.as_mut_ptr(),
                out.len(),
            )
        };
        self.body = read.body;
        self.record = read.packet;
        read.refused.check()?;
        Ok(&out[..read.bytes])
    }

    /// The body of the unit that the last call completed, all after its first byte: a part of that call's payload, to be passed here
    /// again, or of the gather buffer. Empty where the call was refused, completed no unit, or read a STAP-A.
    pub fn body<'a>(&'a self, payload: &'a [u8]) -> &'a [u8] {
        let whole = match self.body.lies_in {
            1 => payload,
            2 => &self.gather,
            _ => return &[],
        };
        whole.get(self.body.at..self.body.at + self.body.len).unwrap_or(&[])
    }

    /// Whether a payload is the head of a packetized unit.
    pub fn is_partition_head(payload: &[u8]) -> Result<bool> {
        // SAFETY: the slice is lent for the call.
        let test = unsafe { sys::rtp_h264_is_partition_head(payload.as_ptr(), payload.len()) };
        test.refused.check()?;
        Ok(test.holds)
    }

    /// Whether a packet with this marker is the last of its frame.
    pub fn is_partition_tail(marker: bool) -> bool {
        // SAFETY: the call takes no slice.
        unsafe { sys::rtp_h264_is_partition_tail(marker) }
    }
}
