//! VP8 frames sent and payloads read.

use std::hint::black_box;

use bytes::Bytes;
use oracle::packetizer::{Depacketizer, Payloader};
use oracle::vp8::{Vp8Packet, Vp8Payloader};
use rtp_rattle::codecs::vp8::{Vp8Packet as OurPacket, Vp8Payloader as OurPayloader};

use crate::timing::{beside, Row};
use crate::MTU;

pub fn rows() -> Vec<Row> {
    vec![
        send("VP8 send, 200,000 bytes", &[0x5A; 200_000]),
        send("VP8 send, one frame of 100 bytes a call", &[0x5A; 100]),
        read("VP8 read, 1,200 bytes", &[0x5A; 200_000]),
    ]
}

fn send(what: &'static str, frame: &[u8]) -> Row {
    let (mut out, mut ends) = (vec![0; 2 * frame.len()], vec![0; frame.len()]);
    let shared = Bytes::copy_from_slice(frame);
    let mut ours = OurPayloader { enable_picture_id: true, picture_id: 0 };
    let mut theirs = Vp8Payloader::at(true, 0);
    let here = || {
        let sent = ours.payload(MTU, black_box(frame), &mut out, &mut ends);
        black_box(&sent.expect("room"));
    };
    let rust = || {
        black_box(&theirs.payload(MTU, black_box(&shared)).expect("packets"));
    };
    beside(what, &[frame], here, Some(rust))
}

fn read(what: &'static str, frame: &[u8]) -> Row {
    let shared = Bytes::copy_from_slice(frame);
    let payloads = Vp8Payloader::at(true, 300).payload(MTU, &shared).expect("packets");
    let (mut ours, mut theirs) = (OurPacket::default(), Vp8Packet::default());
    let here = || {
        for payload in &payloads {
            black_box(ours.depacketize(black_box(payload)).expect("a payload"));
        }
    };
    let rust = || {
        for payload in &payloads {
            black_box(&theirs.depacketize(black_box(payload)).expect("a payload"));
        }
    };
    beside(what, &payloads, here, Some(rust))
}
