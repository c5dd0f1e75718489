//! Inputs with structure: well-formed, damaged a little, at the limits.

use bytes::Bytes;
use oracle::header::{Extension, Header};

use crate::random::Random;
use crate::{frames, reading, records_asked};

/// Strings to be read and records to be written, made once and picked from.
pub struct Pool {
    packets: Vec<Vec<u8>>,
    records: Vec<Header>,
}

impl Pool {
    pub fn new() -> Self {
        use reading::*;
        let packets = [
            notable(),
            lengths(),
            blocks(),
            heads(),
            two_byte_lengths(),
            block_lengths(),
            limits(),
        ];
        let records = [records_asked::edges(), records_asked::full()];
        Pool { packets: packets.concat(), records: records.concat() }
    }

    /// Bytes to be read as a header or a packet.
    pub fn packet(&self, random: &mut Random) -> Bytes {
        let good = match random.below(5) {
            0 => self.packets[random.below(self.packets.len())].clone(),
            1 => reading::random_block(random),
            2 => crowded(random),
            _ => reading::lawful(random),
        };
        let good = if random.one_in(4) && !good.is_empty() { reading::padded(good) } else { good };
        Bytes::from(if random.one_in(2) { random.damaged(&good) } else { good })
    }

    pub fn record(&self, random: &mut Random) -> Header {
        let record = match random.below(8) {
            0 => self.records[random.below(self.records.len())].clone(),
            _ => records_asked::any(random),
        };
        match random.below(8) {
            0 => records_asked::off(&record),
            1 | 2 => bent(random, record),
            _ => record,
        }
    }
}

/// A block of about 32 small elements, or of about 1,024 data bytes.
fn crowded(random: &mut Random) -> Vec<u8> {
    let (count, len) = random.pick(&[(30, 0), (4, 255), (30, 32)]);
    let (profile, head) = random.pick(&[(0x1000, 2), (0x1000, 2), (0xBEDE, 1)]);
    let mut block = vec![];
    for _ in 0..count + random.below(6) {
        let id = 1 + random.below(14) as u8;
        let len = if head == 1 { random.below(len.min(15) + 1) } else { len };
        let lead = if head == 1 { vec![id << 4 | len as u8] } else { vec![id, len as u8] };
        block.extend(lead);
        block.extend(vec![id; len + 2 - head]);
    }
    block.resize(block.len().next_multiple_of(4), 0);
    reading::extended(profile, block.len() / 4, &block)
}

/// A record with one thing at or past its limit.
fn bent(random: &mut Random, mut record: Header) -> Header {
    match random.below(8) {
        0 => record.version = random.byte(),
        1 => record.payload_type = random.byte(),
        2 => record.csrc = (0..14 + random.below(4) as u32).collect(),
        3 => record.extension_profile = random.pick(&[0, 0xBEDE, 0x1000, 0x1001, 0xABAC]),
        4 => {
            record.extensions_padding =
                random.pick(&[262_137, 262_140, 262_141, 1 << 40, usize::MAX - 20, usize::MAX])
        }
        5 => record.extensions.extend((0..random.below(40)).map(|_| small(random))),
        _ => {
            let len = random.pick(&[0, 0, 1, 15, 16, 17, 254, 255, 256, 300, 1_023, 1_024, 1_025]);
            let payload = Bytes::from(random.bytes(len));
            record.extensions.push(Extension { id: random.byte(), payload });
        }
    }
    record
}

fn small(random: &mut Random) -> Extension {
    let len = random.pick(&[0, 1, 1, 2, 40]);
    Extension { id: random.byte() & 15, payload: Bytes::from(random.bytes(len)) }
}

/// Data for `set_extension`.
pub fn element_data(random: &mut Random) -> Bytes {
    let len =
        random.pick(&[0, 1, 2, 3, 4, 5, 8, 15, 16, 17, 18, 40, 255, 256, 1_000, 1_024, 1_025]);
    Bytes::from(random.bytes(len))
}

/// A frame of H.264 units, or of long runs.
pub fn h264_frame(random: &mut Random) -> Bytes {
    let frame = if random.one_in(4) { long_runs(random) } else { units(random) };
    Bytes::from(if random.one_in(4) { random.damaged(&frame) } else { frame })
}

/// Long runs of zeros and of bytes above 1 around start codes, with sets and units to be sent behind these.
fn long_runs(random: &mut Random) -> Vec<u8> {
    let least = random.pick(&[1, 20, 60, 60, 100, 400]);
    frames::runs(random, &[0x65, 0x41, 0x67, 0x68], least)
}

/// Units behind start codes and zeros of all lengths, pairs of short sets, sets of all sizes, or no code at all.
fn units(random: &mut Random) -> Vec<u8> {
    let mut frame = if random.one_in(4) { noise(random, 6) } else { vec![] };
    for _ in 0..random.below(5) {
        if random.one_in(4) {
            frame.extend(unit(random, 0x67, &[0, 1, 2]));
            frame.extend(unit(random, 0x68, &[0, 1, 2]));
        } else {
            let head = unit_head(random);
            frame.extend(unit(random, head, &[0, 1, 2, 3, 5, 9, 30, 90]));
        }
    }
    if random.one_in(30) {
        frame.extend([0, 0, 1, random.pick(&[0x67, 0x68])]);
        frame.extend(vec![0x5A; 1_022 + random.below(4)]);
    }
    frame
}

/// A unit behind a start code: its first byte, then at most as many bytes as one of these says.
fn unit(random: &mut Random, head: u8, lens: &[usize]) -> Vec<u8> {
    let (zeros, below) = (2 + random.below(4), random.pick(lens));
    [&vec![0; zeros][..], &[1, head], &noise(random, below)].concat()
}

fn unit_head(random: &mut Random) -> u8 {
    let usual = [0x65, 0x41, 0x67, 0x68, 0x67, 0x68, 0x09, 0x0C, 0x18, 0x1C];
    if random.one_in(5) {
        random.byte()
    } else {
        random.pick(&usual)
    }
}

/// Bytes of which many are zeros and ones.
fn noise(random: &mut Random, below: usize) -> Vec<u8> {
    (0..random.below(below + 1)).map(|_| random.pick(&[0, 0, 1, 2, 0xAB])).collect()
}

pub fn mtu(random: &mut Random) -> usize {
    match random.below(20) {
        0 => random.pick(&[0, 1, 65_535, 65_536, 1 << 40, usize::MAX]),
        1..=3 => random.pick(&[100, 1_030, 1_200]),
        _ => random.below(14),
    }
}

/// A payload to be read as H.264: an aggregate, a fragment, any unit, or any bytes.
pub fn h264_packet(random: &mut Random) -> Bytes {
    let nri = random.pick(&[0x00, 0x20, 0x60, 0xE0]);
    let mut packet = match random.below(5) {
        0 => aggregate(random, nri),
        1 | 2 => vec![nri | 28, random.pick(&[0x85, 0x05, 0x45, 0xC5, 0x05])],
        3 => vec![random.byte()],
        _ => vec![],
    };
    let len = random.below(7);
    packet.extend(random.bytes(len));
    Bytes::from(if random.one_in(3) { random.damaged(&packet) } else { packet })
}

fn aggregate(random: &mut Random, nri: u8) -> Vec<u8> {
    let mut packet = vec![nri | 24];
    for _ in 0..random.below(5) {
        let len = random.pick(&[0, 1, 2, 3, 9]);
        packet.extend([0, len as u8]);
        packet.extend(random.bytes(len));
    }
    packet
}

/// A VP8 descriptor with a byte or two behind, or cut short.
pub fn vp8_packet(random: &mut Random) -> Bytes {
    let len = random.pick(&[0, 1, 2, 3, 4, 4, 5, 5, 6, 7, 9]);
    Bytes::from(random.bytes(len))
}

#[cfg(test)]
mod tests {
    use std::collections::HashSet;

    use oracle::h264::H264Payloader;
    use oracle::outcomes::{send, Drops};

    use super::*;

    /// Of the frames that one sender sends, more than one in 5 comes where a pair waits and at an mtu
    /// up to 12; more than one in 25 has a unit dropped, one in 10 a pair, one in 50 both, one in 75
    /// several units, and one in 300 several pairs.
    #[test]
    fn enough_is_dropped_for_the_mtu() {
        let (mut random, mut sender, frames) = (Random::new(1), H264Payloader::default(), 20_000);
        let mut counts = [0; 6];
        for _ in 0..frames {
            let (mtu, frame) = (mtu(&mut random), h264_frame(&mut random));
            let waits = mtu <= 12 && sender.waiting().is_some();
            let sent = send(&mut sender, mtu, &frame).expect("packets");
            let Drops { units, pairs } = sent.drops();
            let kinds = [waits, units > 0, pairs > 0, units > 0 && pairs > 0, units > 1, pairs > 1];
            counts.iter_mut().zip(kinds).for_each(|(count, is)| *count += usize::from(is));
        }
        let least = [5, 25, 10, 50, 75, 300].map(|one_in| frames / one_in);
        assert!(counts.iter().zip(least).all(|(count, least)| *count > least), "{counts:?}");
    }

    /// There are start codes of 2 to 40 zeros, and searches for one that begin with 0 to 40 bytes above 1.
    #[test]
    fn codes_stand_behind_runs_of_all_lengths() {
        let mut random = Random::new(1);
        let (mut zeros, mut others) = (HashSet::new(), HashSet::new());
        for _ in 0..20_000 {
            let (frame, mut start) = (h264_frame(&mut random), 0);
            while let Some((place, len)) = H264Payloader::start_code(&frame, start) {
                zeros.insert(len - 1);
                others.insert(frame[start..place].iter().take_while(|byte| **byte > 1).count());
                start = place + len;
            }
        }
        assert!((2..=40).all(|len| zeros.contains(&len)), "{zeros:?}");
        assert!((0..=40).all(|len| others.contains(&len)), "{others:?}");
    }
}
