//! Buffers lent to a sender: filled beforehand, so that a byte written out of place shows.

use bytes::Bytes;

use crate::random::Random;

const BYTE: u8 = 0xA7;
const END: usize = usize::MAX / 3;

pub struct Lent {
    pub out: Vec<u8>,
    pub ends: Vec<usize>,
}

impl Lent {
    /// Room for these packets: mostly more than they need, else exactly that, or too little.
    pub fn around(random: &mut Random, packets: &[Bytes]) -> Self {
        let (bytes, count) = (total(packets), packets.len());
        let (out, ends) = match random.below(12) {
            0 => (bytes.saturating_sub(1), count),
            1 => (bytes, count.saturating_sub(1)),
            2 => (0, 0),
            3..=5 => (bytes, count),
            _ => (bytes + 9, count + 2),
        };
        Lent { out: vec![BYTE; out], ends: vec![END; ends] }
    }

    pub fn room(&self) -> (usize, usize) {
        (self.out.len(), self.ends.len())
    }

    /// Whether nothing was written behind these bytes and these ends.
    pub fn kept_behind(&self, bytes: usize, ends: usize) -> bool {
        self.out[bytes..].iter().all(|byte| *byte == BYTE)
            && self.ends[ends..].iter().all(|end| *end == END)
    }

    /// Whether exactly these packets were written.
    pub fn holds(&self, packets: &[Bytes]) -> bool {
        let mut at = 0;
        let written = packets.iter().zip(&self.ends).all(|(packet, end)| {
            let held = self.out.get(at..*end) == Some(&packet[..]);
            at = *end;
            held
        });
        written && self.kept_behind(total(packets), packets.len())
    }
}

pub fn total(packets: &[Bytes]) -> usize {
    packets.iter().map(|packet| packet.len()).sum()
}
