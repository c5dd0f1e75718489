//! H.264 frames sent and payloads read.

use std::hint::black_box;

use bytes::Bytes;
use oracle::h264::{H264Packet, H264Payloader};
use oracle::packetizer::{Depacketizer, Payloader};
use rtp_rattle::codecs::h264::{H264Packet as OurPacket, H264Payloader as OurPayloader};

use crate::by_value::Sender;
use crate::random::Random;
use crate::timing::{beside, Row};
use crate::MTU;

pub fn rows() -> Vec<Row> {
    let small = frame(&[unit(0x41, 96)]);
    let large = frame(&[unit(0x65, 200_000)]);
    let units = |count: usize, len: usize| frame(&vec![unit(0x41, len); count]);
    vec![
        send("H.264 send, 5,000 units of 20 bytes", MTU, &units(5_000, 20)),
        send("H.264 send, one unit of 200,000 bytes", MTU, &large),
        send("H.264 send, one unit of 200,000 random bytes", MTU, &frame(&[coded(200_000)])),
        send("H.264 send, 200,000 zeros before a late code", MTU, &late_code(200_000)),
        send("H.264 send, 166,667 units of 20 bytes", MTU, &units(166_667, 20)),
        send("H.264 send, one unit of 4,000,000 bytes", MTU, &frame(&[unit(0x65, 4_000_000)])),
        send("H.264 send, 4,000,000 zeros before a late code", MTU, &late_code(4_000_000)),
        send("H.264 send, one unit of 200,000 bytes at mtu 100", 100, &large),
        send("H.264 send, 200 units of 1,000 bytes at mtu 100", 100, &units(200, 1_000)),
        send("H.264 send, one frame of 100 bytes a call", MTU, &small),
        send_by_value("H.264 send, one frame of 100 bytes a call, by value", MTU, &small),
        read("H.264 read, fragments of 1,200 bytes", &payloads(&large)),
        read("H.264 read, units of 1,000 bytes", &vec![unit(0x41, 1_000); 64]),
        read("H.264 read, units of 20 bytes", &vec![unit(0x41, 20); 64]),
    ]
}

/// A unit without zeros.
pub fn unit(first: u8, len: usize) -> Vec<u8> {
    let rest = (1..len).map(|place| 1 + (place % 255) as u8);
    std::iter::once(first).chain(rest).collect()
}

/// A unit of bytes like an encoder's: random, but that a 3 keeps two zeros from a byte up to 3.
fn coded(len: usize) -> Vec<u8> {
    let mut random = Random::new(1);
    let mut unit = vec![0x65];
    while unit.len() < len - 1 {
        let byte = random.byte();
        if byte <= 3 && unit.ends_with(&[0, 0]) {
            unit.push(3);
        }
        unit.push(byte);
    }
    unit.truncate(len - 1);
    // no unit ends with a zero
    unit.push(0x80);
    unit
}

/// So many zeros and the 1 of their start code, then a unit.
fn late_code(zeros: usize) -> Vec<u8> {
    [&vec![0; zeros][..], &[1], &unit(0x65, 20)].concat()
}

/// Each unit behind a start code.
pub fn frame(units: &[Vec<u8>]) -> Vec<u8> {
    units.iter().flat_map(|unit| [&[0, 0, 0, 1], &unit[..]].concat()).collect()
}

/// The payloads of a frame.
pub fn payloads(frame: &[u8]) -> Vec<Vec<u8>> {
    let (mut out, mut ends) = room(frame);
    let sent = OurPayloader::new().payload(MTU, frame, &mut out, &mut ends).expect("room");
    sent.map(<[u8]>::to_vec).collect()
}

/// Room for the payloads of any frame of this length.
fn room(frame: &[u8]) -> (Vec<u8>, Vec<usize>) {
    (vec![0; 2 * frame.len()], vec![0; frame.len()])
}

fn send(what: &'static str, mtu: usize, frame: &[u8]) -> Row {
    let mut ours = OurPayloader::new();
    sending(what, mtu, frame, |out, ends| {
        black_box(&ours.payload(mtu, black_box(frame), out, ends).expect("room"));
    })
}

fn send_by_value(what: &'static str, mtu: usize, frame: &[u8]) -> Row {
    let mut ours = Sender::new();
    sending(what, mtu, frame, |out, ends| {
        black_box(ours.payload(mtu, black_box(frame), out, ends));
    })
}

/// Times a sender here, which is lent room for the payloads of the frame, beside the Rust's.
fn sending(
    what: &'static str,
    mtu: usize,
    frame: &[u8],
    mut ours: impl FnMut(&mut [u8], &mut [usize]),
) -> Row {
    let (mut out, mut ends) = room(frame);
    let shared = Bytes::copy_from_slice(frame);
    let mut theirs = H264Payloader::default();
    let here = || ours(&mut out, &mut ends);
    let rust = || {
        black_box(&theirs.payload(mtu, black_box(&shared)).expect("packets"));
    };
    beside(what, &[frame], here, Some(rust))
}

fn read(what: &'static str, payloads: &[Vec<u8>]) -> Row {
    let shared: Vec<Bytes> = payloads.iter().map(|payload| Bytes::from(payload.clone())).collect();
    let mut out = vec![0; 300_000];
    let (mut ours, mut theirs) = (OurPacket::new(false, 300_000), H264Packet::default());
    let here = || {
        for payload in payloads {
            black_box(ours.depacketize(black_box(payload), &mut out).expect("room"));
        }
    };
    let rust = || {
        for payload in &shared {
            black_box(&theirs.depacketize(black_box(payload)).expect("units"));
        }
    };
    beside(what, payloads, here, Some(rust))
}
