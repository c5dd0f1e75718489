//! Packets joined; the Rust has no joiner.

use std::hint::black_box;

use rtp_rattle::header::Header;
use rtp_rattle::packet::Packet;
use rtp_rattle::Joiner;

use crate::h264::{frame, payloads, unit};
use crate::timing::{beside_a_copy, Row};

const SSRC: u32 = 7;

pub fn rows() -> Vec<Row> {
    let clean = stream();
    let lossy: Vec<Vec<u8>> = clean
        .iter()
        .enumerate()
        .filter(|(place, _)| place % 10 != 9)
        .map(|(_, p)| p.clone())
        .collect();
    vec![join("joiner, nothing lost", &clean), join("joiner, every tenth packet lost", &lossy)]
}

/// The packets of fifty frames, each of one unit of 20,000 bytes and one of 500.
fn stream() -> Vec<Vec<u8>> {
    let sent = payloads(&frame(&[unit(0x65, 20_000), unit(0x41, 500)]));
    let numbered = sent.iter().cycle().take(50 * sent.len()).zip(0..);
    numbered.map(|(payload, number)| packet(number, payload)).collect()
}

fn packet(sequence_number: u16, payload: &[u8]) -> Vec<u8> {
    let header =
        Header { version: 2, payload_type: 96, sequence_number, ssrc: SSRC, ..Header::default() };
    let mut bytes = vec![0; 1_500];
    let len = Packet { header, payload }.marshal_to(&mut bytes).expect("room");
    bytes.truncate(len);
    bytes
}

fn join(what: &'static str, packets: &[Vec<u8>]) -> Row {
    let mut out = vec![0; 30_000];
    let here = || {
        let mut joiner = Joiner::open(SSRC, 0, 20_000);
        for packet in packets {
            black_box(joiner.join(black_box(packet), &mut out).expect("room"));
        }
    };
    beside_a_copy(what, packets, here)
}
