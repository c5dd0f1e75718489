//! Rounds of questions, one after the other.

use bytes::Bytes;
use rtp_rattle::codecs::vp8::{Vp8Packet, Vp8Payloader};
use util::marshal::MarshalSize;

use crate::h264::{self, Reader, Sender};
use crate::header::{self, Pair};
use crate::inputs::{self, Pool};
use crate::random::Random;
use crate::tally::Tally;
use crate::verdict::Theirs;
use crate::{packet, vp8};

pub fn any(pool: &Pool, random: &mut Random, tally: &mut Tally) {
    match random.below(10) {
        0 | 1 => reading(pool, random, tally),
        2..=5 => writing(pool, random, tally),
        6 | 7 => changing(pool, random, tally),
        8 => h264_show(random, tally),
        _ => vp8_show(random, tally),
    }
}

fn reading(pool: &Pool, random: &mut Random, tally: &mut Tally) {
    for _ in 0..10 {
        let bytes = pool.packet(random);
        header::unmarshal(tally, &bytes);
        packet::unmarshal(tally, &bytes);
    }
}

/// Everything that can be asked about a record, and the record written to buffers around its size.
fn writing(pool: &Pool, random: &mut Random, tally: &mut Tally) {
    let pair = Pair::new(pool.record(random), random.pick(&[0, 0xFF, 0x11]));
    pair.marshal_size(tally);
    pair.get_extension_payload_len(tally);
    pair.get_extension_ids(tally);
    pair.get_extension(tally, random.pick(&[0, 1, 2, 7]));
    // A larger size is asked about with a buffer that is too small.
    let size = Theirs::sure(|| pair.theirs.marshal_size()).answer().map_or(0, |size| *size);
    let size = size.min(2_000);
    let fill = random.byte();
    for len in [size.saturating_sub(1), size, size + random.below(9)] {
        pair.marshal_to(tally, len, fill);
    }
    let len = random.below(12);
    let payload = Bytes::from(random.bytes(len));
    packet::marshal(tally, &pair, &payload, fill);
}

/// A record changed again and again.
fn changing(pool: &Pool, random: &mut Random, tally: &mut Tally) {
    let first = if random.one_in(2) { pool.record(random) } else { Default::default() };
    let mut pair = Pair::new(first, random.pick(&[0, 0xFF, 0x11]));
    for _ in 0..12 {
        let id = random.pick(&[0, 1, 1, 2, 3, 14, 15, 200]);
        match random.below(6) {
            0..=2 => pair.set_extension(tally, id, &inputs::element_data(random)),
            3 => pair.del_extension(tally, id),
            4 => pair.get_extension(tally, id),
            _ => pair.marshal_to(tally, 120, 0x33),
        }
    }
}

/// Frames sent by one sender, their packets and others read by one reader.
fn h264_show(random: &mut Random, tally: &mut Tally) {
    let mut sender = Sender::default();
    let room = random.pick(&[0, 3, 12, 40, 200, 200]);
    let mut reader = Reader::new(random.one_in(2), room);
    for _ in 0..4 {
        let (mtu, frame) = (inputs::mtu(random), inputs::h264_frame(random));
        for packet in sender.payload(tally, random, mtu, &frame).into_iter().take(8) {
            let packet = match random.below(6) {
                0 => Bytes::from(random.damaged(&packet)),
                1 => inputs::h264_packet(random),
                _ => packet,
            };
            reader.depacketize(tally, random, &packet);
        }
        let packet = inputs::h264_packet(random);
        reader.depacketize(tally, random, &packet);
        h264::partitions(tally, &packet, random.one_in(2));
    }
}

/// Frames sent by one sender, their packets and others read by one reader.
fn vp8_show(random: &mut Random, tally: &mut Tally) {
    let picture_id = random.pick(&[0, 1, 125, 127, 128, 300, 32_765, 32_767, 32_768, 65_535]);
    let mut sender = Vp8Payloader { enable_picture_id: random.one_in(2), picture_id };
    let mut reader = if random.one_in(3) { fields(random) } else { Vp8Packet::default() };
    for _ in 0..5 {
        let mtu = inputs::mtu(random);
        let len = random.below(30);
        let frame = Bytes::from(random.bytes(len));
        for packet in vp8::payload(tally, random, &mut sender, mtu, &frame).into_iter().take(4) {
            vp8::depacketize(tally, &mut reader, &packet);
        }
        let packet = inputs::vp8_packet(random);
        vp8::depacketize(tally, &mut reader, &packet);
        vp8::partitions(tally, &packet, random.one_in(2));
    }
}

/// Any fields, flags that are neither 0 nor 1 among them.
fn fields(random: &mut Random) -> Vp8Packet {
    let mut flag = || random.pick(&[0, 0, 1, 1, 1, 2, 128, 255]);
    Vp8Packet {
        x: flag(),
        n: flag(),
        s: flag(),
        pid: flag(),
        i: flag(),
        l: flag(),
        t: flag(),
        k: flag(),
        tl0_pic_idx: flag(),
        tid: flag(),
        y: flag(),
        key_idx: flag(),
        picture_id: random.pick(&[0, 5, 32_767, 32_768, 65_535]),
    }
}
