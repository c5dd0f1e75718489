//! H.264 units put together from the packets of one source, by sequence number.

use std::fmt;

use crate::error::Result;
use crate::sys;

/// A joiner. It keeps the fragments of an open run in a gather buffer of its own.
#[derive(Clone)]
pub struct Joiner {
    record: sys::Joiner,
    gather: Vec<u8>,
}

/// What became of a packet.
#[derive(Clone, Copy, Debug, Eq, PartialEq)]
pub enum Joined<'a> {
    /// The packet was accepted. Before it `count` numbers were passed over, `first` the first of them. `units` are those
    /// that it completed, each behind `00 00 00 01`. The first byte of a unit that came in fragments has NRI and type of the last
    /// of them, and the forbidden bit where any of them had it; every other unit is as it came.
    Accepted { first: u16, count: u16, units: &'a [u8] },
    /// Its number is 32,768 or more ahead: nothing was done with it.
    Late,
}

/// The numbers that never came before closing: `count` from `first` on.
#[derive(Clone, Copy, Debug, Eq, PartialEq)]
pub struct Closed {
    pub first: u16,
    pub count: u16,
}

impl fmt::Debug for Joiner {
    fn fmt(&self, f: &mut fmt::Formatter<'_>) -> fmt::Result {
        f.debug_struct("Joiner")
            .field("source", &self.source())
            .field("awaited", &self.awaited())
            .field("missed", &self.missed())
            .field("running", &self.record.running)
            .field("gathered", &self.record.gathered)
            .field("marked", &self.record.marked)
            .field("time", &self.record.time)
            .field("closed", &self.is_closed())
            .finish()
    }
}

impl Joiner {
    /// A joiner for the packets of a source, the first of which bears the number `first`. It has room for `room` bytes of
    /// fragments: the longest unit's length less one.
    pub fn open(ssrc: u32, first: u16, room: usize) -> Self {
        // SAFETY: the call takes no slice.
        Joiner { record: unsafe { sys::rtp_joiner_open(ssrc, first) }, gather: vec![0; room] }
    }

    /// Takes a packet: the units that it completes are written to the front of `out`. A fragment that is no start and has the awaited
    /// number, but another timestamp than the open run, is refused with [`Error::OtherTime`](crate::Error::OtherTime), and its number
    /// is awaited still.
    pub fn join<'a>(&mut self, packet: &[u8], out: &'a mut [u8]) -> Result<Joined<'a>> {
        // SAFETY: the record and the slices are lent for the call, and those that are written overlap nothing.
        let joined = unsafe {
            sys::rtp_joiner_join(
                &mut self.record,
                packet.as_ptr(),
                packet.len(),
                self.gather.as_mut_ptr(),
                self.gather.len(),
                out.as_mut_ptr(),
                out.len(),
            )
        };
        joined.refused.check()?;
        if joined.late {
            return Ok(Joined::Late);
        }
        Ok(Joined::Accepted {
            first: joined.first,
            count: joined.count,
            units: &out[..joined.bytes],
        })
    }

    /// Closes the joiner with the number after the last sent.
    pub fn close(&mut self, number: u16) -> Result<Closed> {
        // SAFETY: the record goes by value.
        let closed = unsafe { sys::rtp_joiner_close(self.record, number) };
        closed.refused.check()?;
        self.record = closed.joiner;
        Ok(Closed { first: closed.first, count: closed.count })
    }

    /// The sender's SSRC.
    pub fn source(&self) -> u32 {
        self.record.source
    }

    /// The sequence number of the next packet.
    pub fn awaited(&self) -> u16 {
        self.record.awaited
    }

    /// How many packets were passed over.
    pub fn missed(&self) -> u32 {
        self.record.missed
    }

    pub fn is_closed(&self) -> bool {
        self.record.closed
    }
}
