//! Header records.

use bytes::Bytes;
use oracle::header::{Extension, Header};

use crate::random::Random;

pub const ONE_BYTE: u16 = 0xBEDE;
pub const TWO_BYTE: u16 = 0x1000;
pub const OTHER: u16 = 0xABAC;

pub fn element(id: u8, len: usize) -> Extension {
    let data: Vec<u8> = (0..len).map(|place| id ^ 0xA0u8.wrapping_add(place as u8)).collect();
    Extension { id, payload: Bytes::from(data) }
}

/// A record with extensions on.
pub fn holding(profile: u16, extensions: Vec<Extension>, extensions_padding: usize) -> Header {
    Header {
        version: 2,
        extension: true,
        payload_type: 96,
        sequence_number: 1,
        timestamp: 2,
        ssrc: 3,
        extension_profile: profile,
        extensions,
        extensions_padding,
        ..Header::default()
    }
}

/// A record inside the writer's domain.
pub fn any(random: &mut Random) -> Header {
    let profile = random.pick(&[ONE_BYTE, ONE_BYTE, TWO_BYTE, TWO_BYTE, OTHER, 0, 0x1001]);
    let count = match profile {
        ONE_BYTE | TWO_BYTE => random.below(5),
        _ => random.pick(&[1, 1, 1, 1, 0, 2]),
    };
    let extensions = (0..count).map(|_| any_element(random, profile)).collect();
    Header {
        version: random.below(4) as u8,
        padding: random.one_in(3),
        extension: !random.one_in(6),
        marker: random.one_in(2),
        payload_type: random.below(128) as u8,
        sequence_number: random.pick(&[0, 1, 0x1234, 0xFFFF]),
        timestamp: random.pick(&[0, 0x0102_0304, 0xFFFF_FFFF]),
        ssrc: random.pick(&[0, 0x0506_0708, 0xFFFF_FFFF]),
        csrc: any_sources(random),
        extension_profile: profile,
        extensions,
        extensions_padding: random.pick(&[0, 0, 1, 2, 3, 4, 5, 6, 7, 9, 20]),
    }
}

fn any_sources(random: &mut Random) -> Vec<u32> {
    let count = random.pick(&[0, 0, 0, 1, 2, 15]);
    (0..count).map(|_| random.below(1 << 32) as u32).collect()
}

fn any_element(random: &mut Random, profile: u16) -> Extension {
    let (id, len) = match profile {
        ONE_BYTE => (random.below(16) as u8, 1 + random.below(16)),
        TWO_BYTE => (random.byte(), random.pick(&[0, 1, 2, 3, 4, 16, 17, 33])),
        _ => (random.pick(&[0, 0, 0, 9]), random.pick(&[0, 4, 4, 8, 12, 3])),
    };
    Extension { id, payload: Bytes::from(random.bytes(len)) }
}

/// Every limit of a record from both sides.
pub fn edges() -> Vec<Header> {
    let plain = || holding(ONE_BYTE, vec![element(1, 2)], 1);
    let many = |profile, count: u8, len| {
        holding(profile, (1..=count).map(|id| element(id, len)).collect(), 0)
    };
    let mut edges = vec![];
    edges.extend([15, 16].map(|count| Header { csrc: (0..count).collect(), ..plain() }));
    edges.extend(
        [262_139, 262_140, 262_141, 1 << 40]
            .map(|padding| Header { extensions_padding: padding, ..plain() }),
    );
    edges.extend([0, 3, 4, 255].map(|version| Header { version, ..plain() }));
    edges.extend([127, 128, 255].map(|payload_type| Header { payload_type, ..plain() }));
    for profile in [ONE_BYTE, TWO_BYTE, OTHER] {
        edges.extend([0, 14, 15, 16, 255].map(|id| holding(profile, vec![element(id, 4)], 0)));
        edges
            .extend([0, 1, 16, 17, 255, 256].map(|len| holding(profile, vec![element(2, len)], 0)));
        edges.extend([32, 33].map(|count| many(profile, count, usize::from(profile == ONE_BYTE))));
    }
    edges
}

/// 1,024 data bytes and 1,025, in one element and in five.
pub fn full() -> Vec<Header> {
    let two_byte = |last| {
        let mut elements: Vec<Extension> = (1..5).map(|id| element(id, 255)).collect();
        elements.push(element(5, last));
        holding(TWO_BYTE, elements, 0)
    };
    let other = |len| holding(OTHER, vec![element(0, len)], 0);
    vec![two_byte(4), two_byte(5), other(1_024), other(1_025)]
}

pub fn off(header: &Header) -> Header {
    Header { extension: false, ..header.clone() }
}
