//! The joiner, as the paper's section "The joiner" has it.

use crate::h264::{annex_b, feed, OpenRun};
use crate::{packet, refuse, Refusal};

const LONGEST_RUN: usize = 16_777_215;
const MOST_MISSED: u64 = 4_294_967_295;
const LATE: u16 = 32_768;

#[derive(Clone, Debug, PartialEq)]
pub struct Joiner {
    pub source: u32,
    pub awaited: u16,
    pub missed: u64,
    pub run: Option<OpenRun>,
    pub closed: bool,
}

#[derive(Debug, PartialEq)]
pub enum Joined {
    /// How many numbers were passed over, the first of them, and what is handed out.
    Accepted {
        first: u16,
        count: u16,
        out: Vec<u8>,
    },
    Late,
}

#[derive(Debug, PartialEq)]
pub struct Closed {
    pub first: u16,
    pub count: u16,
}

/// "distance d = (number - awaited) mod 65,536".
pub fn distance(number: u16, awaited: u16) -> u16 {
    ((u32::from(number) + 65_536 - u32::from(awaited)) % 65_536) as u16
}

/// "(first + i) mod 65,536".
pub fn number(first: u16, i: usize) -> u16 {
    ((usize::from(first) + i) % 65_536) as u16
}

impl Joiner {
    pub fn open(source: u32, first: u16) -> Self {
        Joiner { source, awaited: first, missed: 0, run: None, closed: false }
    }

    /// How many bytes of the open run stand in front of the gather buffer.
    pub fn gathered(&self) -> usize {
        self.run.as_ref().map_or(0, |run| run.bytes.len())
    }

    /// Whether a fragment of the open run had its forbidden bit set.
    pub fn marked(&self) -> bool {
        self.run.as_ref().is_some_and(|run| run.marked)
    }

    /// The timestamp of the open run; 0 where none is open.
    pub fn time(&self) -> u32 {
        self.run.as_ref().map_or(0, |run| run.time)
    }

    /// "Each call does, in order: 22; packet reading; 20; distance ..; Late ..; 24; H.264 checks", 8 after 22, and 6 and 5 last.
    pub fn join(
        &mut self,
        bytes: &[u8],
        gather: &mut [u8],
        room: usize,
    ) -> Result<Joined, Refusal> {
        if self.closed {
            return refuse(22);
        }
        if self.gathered() > gather.len().min(LONGEST_RUN) {
            return refuse(8);
        }
        let packet = packet::read(bytes)?;
        if packet.source != self.source {
            return refuse(20);
        }
        let count = distance(packet.number, self.awaited);
        if count >= LATE {
            return Ok(Joined::Late);
        }
        let missed = self.missed_with(count)?;
        let run = if count > 0 { None } else { self.run.clone() };
        let fate = feed(run, packet.time, &packet.payload)?;
        if fate.gathered.len() > gather.len().min(LONGEST_RUN) {
            return refuse(6);
        }
        let out = annex_b(&fate.units);
        if out.len() > room {
            return refuse(5);
        }
        gather[..fate.gathered.len()].copy_from_slice(&fate.gathered);
        let first = self.awaited;
        self.missed = missed;
        self.awaited = number(packet.number, 1);
        self.run = fate.run;
        Ok(Joined::Accepted { first, count, out })
    }

    /// "Closing takes the number after the last sent, checks 22, 23, 24 in that order, drops the open run and adds the distance to
    /// missed."
    pub fn close(&mut self, number: u16) -> Result<Closed, Refusal> {
        if self.closed {
            return refuse(22);
        }
        let count = distance(number, self.awaited);
        if count >= LATE {
            return refuse(23);
        }
        self.missed = self.missed_with(count)?;
        self.run = None;
        self.closed = true;
        Ok(Closed { first: self.awaited, count })
    }

    fn missed_with(&self, count: u16) -> Result<u64, Refusal> {
        let missed = self.missed + u64::from(count);
        if missed > MOST_MISSED {
            return refuse(24);
        }
        Ok(missed)
    }
}
