//! What is sent: groups of payloads, and packets around them.

use crate::h264::{annex_b, FORBIDDEN};
use crate::joiner::number;
use crate::random::Random;

/// "A group is one STAP-A, one plain unit, or all fragments of one unit (handed out with its top bit clear)." That is so where no relay
/// marks a fragment, "because our sender clears that bit in all fragments". E3 adds: "the rebuilt top bit is set if any fragment of the
/// unit had it set".
#[derive(Clone)]
pub struct Group {
    pub payloads: Vec<Vec<u8>>,
    /// what it is handed out as
    pub handed: Vec<u8>,
    /// how many bytes are gathered of it
    pub gathered: usize,
}

impl Group {
    pub fn alone(unit: Vec<u8>) -> Self {
        Group { handed: annex_b(&[unit.clone()]), payloads: vec![unit], gathered: 0 }
    }

    pub fn aggregated(units: &[Vec<u8>]) -> Self {
        let sized = |unit: &Vec<u8>| [&(unit.len() as u16).to_be_bytes(), &unit[..]].concat();
        let payload = [vec![0x78], units.iter().flat_map(sized).collect()].concat();
        Group { payloads: vec![payload], handed: annex_b(units), gathered: 0 }
    }

    /// A unit by its first byte and the parts of what follows it, of which there are two at least.
    pub fn fragmented(head: u8, parts: &[Vec<u8>]) -> Self {
        let bits = |i: usize| match i {
            0 => START,
            _ if i + 1 == parts.len() => END,
            _ => 0,
        };
        let fragments = parts.iter().enumerate().map(|(i, part)| fragment(head, bits(i), part));
        let unit = [vec![head & 0x7F], parts.concat()].concat();
        Group { payloads: fragments.collect(), gathered: unit.len() - 1, handed: annex_b(&[unit]) }
    }

    /// The group behind a relay.
    fn relayed(mut self, random: &mut Random) -> Self {
        let behind = self.payloads.into_iter().map(|payload| relayed(random, payload));
        self.payloads = behind.collect();
        // the units of a STAP-A have first bytes of their own
        let aggregated = self.payloads[0][0] & 0x1F == 24;
        if !aggregated && self.payloads.iter().any(|payload| payload[0] & FORBIDDEN != 0) {
            self.handed[4] |= FORBIDDEN;
        }
        self
    }
}

/// A payload behind a relay, which "sets the forbidden bit of RFC 6184 on packets it saw damaged": one in four.
pub fn relayed(random: &mut Random, payload: Vec<u8>) -> Vec<u8> {
    if random.one_in(4) {
        marked(payload)
    } else {
        payload
    }
}

/// A payload that a relay saw damaged.
pub fn marked(mut payload: Vec<u8>) -> Vec<u8> {
    if let Some(first) = payload.first_mut() {
        *first |= FORBIDDEN;
    }
    payload
}

pub const START: u8 = 0x80;
pub const END: u8 = 0x40;

/// An FU-A.
pub fn fragment(head: u8, bits: u8, part: &[u8]) -> Vec<u8> {
    [&[(head & 0x60) | 28, bits | (head & 0x1F)], part].concat()
}

/// The first byte of a unit that may be sent.
pub fn head(random: &mut Random) -> u8 {
    let top = if random.one_in(8) { 0x80 } else { 0 };
    let kind = random.pick(&[1, 1, 5, 5, 6, 2, 3, 10, 19, 23]);
    top | (random.below(4) as u8) << 5 | kind
}

pub fn unit(random: &mut Random) -> Vec<u8> {
    [vec![head(random)], random.bytes(2..=5)].concat()
}

pub fn group(random: &mut Random) -> Group {
    match random.below(6) {
        0 => {
            let units: Vec<Vec<u8>> = (0..random.within(1..=3)).map(|_| unit(random)).collect();
            Group::aggregated(&units)
        }
        1 | 2 => Group::alone(unit(random)),
        _ => fragments(random),
    }
}

/// A unit in two to four fragments.
pub fn fragments(random: &mut Random) -> Group {
    let head = head(random);
    let parts: Vec<Vec<u8>> = (0..random.within(2..=4)).map(|_| random.bytes(1..=4)).collect();
    Group::fragmented(head, &parts)
}

/// What the header of a packet says of it.
#[derive(Clone, Copy)]
pub struct Stamp {
    pub source: u32,
    pub number: u16,
    pub time: u32,
}

impl Stamp {
    /// Of the first packet of this source.
    pub fn first(random: &mut Random, source: u32) -> Self {
        Stamp { source, number: first_number(random), time: time(random) }
    }

    /// Of the packet so many numbers on.
    pub fn on(self, i: usize) -> Self {
        Stamp { number: number(self.number, i), ..self }
    }

    /// With a time that may be mistaken for its own, or by chance is it.
    pub fn beside(self, random: &mut Random) -> Self {
        let time = match random.below(6) {
            0 => self.time,
            1 => self.time.wrapping_add(1),
            2 => self.time.wrapping_sub(1),
            3 | 4 => self.time ^ (1 << random.below(32)),
            _ => time(random),
        };
        Stamp { time, ..self }
    }

    /// As it is, but one in so many with a time beside its own.
    pub fn astray(self, random: &mut Random, one_in: usize) -> Self {
        if random.one_in(one_in) {
            self.beside(random)
        } else {
            self
        }
    }
}

/// A packet of version 2 with no padding, extensions or CSRCs.
pub fn packet(random: &mut Random, stamp: Stamp, payload: &[u8]) -> Vec<u8> {
    let kind = 96 + 128 * random.below(2) as u8;
    let Stamp { source, number, time } = stamp;
    let fixed =
        [&[0x80, kind], &number.to_be_bytes()[..], &time.to_be_bytes(), &source.to_be_bytes()];
    [&fixed.concat()[..], payload].concat()
}

/// The same, at times with CSRCs, an extension or padding.
pub fn dressed(random: &mut Random, stamp: Stamp, payload: &[u8]) -> Vec<u8> {
    let mut bytes = packet(random, stamp, payload);
    match random.below(24) {
        0 => {
            bytes[0] |= 1;
            bytes.splice(12..12, random.bytes(4..=4));
        }
        1 => {
            bytes[0] |= 0x10;
            bytes.splice(12..12, [0xBE, 0xDE, 0, 1, 0x10, 0xAA, 0, 0]);
        }
        2 => {
            bytes[0] |= 0x20;
            bytes.extend([0, 2]);
        }
        _ => {}
    }
    bytes
}

/// What a sender sends, and in half of the shows a relay hands on: packet i bears (first + i) mod 65,536, and "all packets of one unit
/// carry one timestamp".
pub struct Show {
    pub first: Stamp,
    pub groups: Vec<Group>,
    pub packets: Vec<Vec<u8>>,
}

impl Show {
    pub fn new(random: &mut Random, groups: usize) -> Self {
        let source = random.pick(&[3, 0, u32::MAX, 0x1234_5678, 0x0001_0000]);
        let first = Stamp::first(random, source);
        let groups = (0..groups).map(|_| group(random)).collect();
        Show::from(random, first, groups)
    }

    /// One or two units in fragments.
    pub fn in_fragments(random: &mut Random, first: Stamp) -> Self {
        let units = (0..random.within(1..=2)).map(|_| fragments(random)).collect();
        Show::from(random, first, units)
    }

    fn from(random: &mut Random, first: Stamp, mut groups: Vec<Group>) -> Self {
        if random.one_in(2) {
            groups = groups.into_iter().map(|group| group.relayed(random)).collect();
        }
        let (mut packets, mut next) = (vec![], first);
        for group in &groups {
            for payload in &group.payloads {
                packets.push(dressed(random, next, payload));
                next = next.on(1);
            }
            next.time = next.time.wrapping_add(random.pick(&STEPS));
        }
        Show { first, packets, groups }
    }

    /// "Closing takes the number after the last sent".
    pub fn end(&self) -> u16 {
        self.first.on(self.packets.len()).number
    }

    /// "gather for the longest unit less one byte".
    pub fn longest(&self) -> usize {
        self.groups.iter().map(|group| group.gathered).max().unwrap_or(0)
    }

    /// "output for the largest group as handed out, prefixes included".
    pub fn largest(&self) -> usize {
        self.groups.iter().map(|group| group.handed.len()).max().unwrap_or(0)
    }
}

/// From a group's time to the next one's: none within a picture.
const STEPS: [u32; 4] = [0, 1, 3_000, 3_000];

/// Often one beside the wrap.
fn time(random: &mut Random) -> u32 {
    match random.below(3) {
        0 => random.pick(&[0, 1, u32::MAX, u32::MAX - 1]),
        _ => random.below(1 << 32) as u32,
    }
}

/// Often one before a wrap, or before the half of the numbers.
fn first_number(random: &mut Random) -> u16 {
    match random.below(4) {
        0 => u16::MAX - random.below(5) as u16,
        1 => 32_764 + random.below(8) as u16,
        2 => random.below(4) as u16,
        _ => random.below(65_536) as u16,
    }
}
