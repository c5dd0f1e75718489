//! The limits of 65,535 bytes and more, from both sides, once a run.

use bytes::Bytes;
use oracle::header::Header;
use rtp_rattle::codecs::vp8::{Vp8Packet, Vp8Payloader};

use crate::h264::{self, Reader, Sender};
use crate::header::{self, Pair};
use crate::random::Random;
use crate::tally::Tally;
use crate::{packet, vp8};

const PACKET: usize = 65_535;
const FRAME: usize = 16_777_216;

pub fn all(random: &mut Random, tally: &mut Tally) {
    for len in [PACKET - 1, PACKET, PACKET + 1] {
        packets(random, tally, len);
    }
    for len in [FRAME - 1, FRAME, FRAME + 1] {
        frames(random, tally, len);
    }
    many_drops(random, tally);
    for more in [0, 1] {
        long_run(random, tally, more);
    }
}

/// Bytes of this length, the first of them given.
fn long(first: &[u8], len: usize) -> Bytes {
    let mut bytes = vec![0x11; len];
    bytes[..first.len()].copy_from_slice(first);
    Bytes::from(bytes)
}

fn packets(random: &mut Random, tally: &mut Tally, len: usize) {
    let block = [0x90, 0x60, 0, 1, 0, 0, 0, 2, 0, 0, 0, 3, 0x10, 0x00, 0x3F, 0xF0];
    for first in [&[0x80][..], &[0xA0], &[0x9F], &block] {
        header::unmarshal(tally, &long(first, len));
        packet::unmarshal(tally, &long(first, len));
    }
    for padding in [false, true] {
        let pair = Pair::new(Header { version: 2, padding, ..Header::default() }, 0);
        packet::marshal(tally, &pair, &long(&[], len), 0xEE);
    }
    for first in [[0x41, 0x05], [0x78, 0xFF], [0x7C, 0x85], [0x7C, 0x45], [0x7D, 0x85]] {
        let bytes = long(&first, len);
        Reader::new(false, PACKET).depacketize(tally, random, &bytes);
        Reader::new(true, PACKET - 3).depacketize(tally, random, &bytes);
        h264::partitions(tally, &bytes, true);
        vp8::depacketize(tally, &mut Vp8Packet::default(), &bytes);
        vp8::partitions(tally, &bytes, true);
    }
}

fn frames(random: &mut Random, tally: &mut Tally, len: usize) {
    for mtu in [1_200, PACKET, PACKET + 1] {
        for first in [&[0, 0, 1, 0x65][..], &[0x41], &[0, 0, 1, 0x67]] {
            Sender::default().payload(tally, random, mtu, &long(first, len));
        }
        let late_code = [&vec![0; len - 2][..], &[1, 0x65]].concat();
        Sender::default().payload(tally, random, mtu, &Bytes::from(late_code));
        let mut sender = Vp8Payloader { enable_picture_id: true, picture_id: 127 };
        vp8::payload(tally, random, &mut sender, mtu, &long(&[], len));
    }
}

/// Of one frame over a million units and as many pairs are dropped for the mtu.
fn many_drops(random: &mut Random, tally: &mut Tally) {
    let pair_and_unit = [0, 0, 1, 0x67, 0, 0, 1, 0x68, 0, 0, 1, 0x41, 0x41];
    let frame = Bytes::from(pair_and_unit.repeat(FRAME / pair_and_unit.len()));
    Sender::default().payload(tally, random, 1, &frame);
}

/// Fragments up to a run of one byte less than may be, then an end with one byte and `more`.
fn long_run(random: &mut Random, tally: &mut Tally, more: usize) {
    let mut reader = Reader::new(false, FRAME + 10);
    let (gathered, piece) = (FRAME - 2, PACKET - 2);
    for at in (0..gathered).step_by(piece) {
        let fragment = long(&[0x7C, 0x05], 2 + piece.min(gathered - at));
        reader.depacketize(tally, random, &fragment);
    }
    // Again and again, since the output may be too small.
    for _ in 0..4 {
        reader.depacketize(tally, random, &long(&[0x7C, 0x45], 3 + more));
    }
}
