//! Byte strings to be read as a header or a packet.

use crate::random::{strings, Random};

const FIXED: [u8; 12] = [0x80, 0x60, 0, 1, 0, 0, 0, 2, 0, 0, 0, 3];

/// A packet whose extension block has this many words; the block and what follows are `rest`.
pub fn extended(profile: u16, words: usize, rest: &[u8]) -> Vec<u8> {
    let mut packet = FIXED.to_vec();
    packet[0] = 0x90;
    packet.extend(profile.to_be_bytes());
    packet.extend((words as u16).to_be_bytes());
    packet.extend(rest);
    packet
}

pub fn padded(mut packet: Vec<u8>) -> Vec<u8> {
    packet[0] |= 0x20;
    packet
}

/// Blocks whose reading is easily got wrong.
pub fn notable() -> Vec<Vec<u8>> {
    let one = |words, rest: &[u8]| extended(0xBEDE, words, rest);
    let two = |words, rest: &[u8]| extended(0x1000, words, rest);
    let id_15 = [
        one(2, &[0xFF, 0x11, 0x22, 0x33, 0x44, 0x55, 0x66, 0x77, 0x99]),
        one(1, &[0x10, 0xAA, 0x00, 0xF3, 0x99]),
        one(1, &[0xF0, 0xAA, 0xBB, 0x03]),
        one(1, &[0xF0, 0xAA, 0xBB, 0x04]),
    ];
    let id_0_with_a_length = one(1, &[0x03, 0x01, 0x02, 0x03, 0x04]);
    let length_byte_outside = two(1, &[0x00, 0x00, 0x00, 0x07, 0x02, 0xAA, 0xBB, 0xCC]);
    let zeros_between = two(2, &[0x00, 0x05, 0x01, 0xAA, 0x00, 0x06, 0x00, 0x00, 0x77]);
    let same_id = one(2, &[0x10, 0xAA, 0x10, 0xBB, 0x11, 0xCC, 0xDD, 0x00]);
    let ends_with_the_packet = one(1, &[0x00, 0x00, 0x00, 0x10, 0xAA]);
    let mut packets = id_15.to_vec();
    packets.extend([
        id_0_with_a_length,
        length_byte_outside,
        zeros_between,
        same_id,
        ends_with_the_packet,
    ]);
    packets.extend(packets.clone().into_iter().map(padded));
    packets
}

/// Every length around "under 4 bytes, or under 12 + 4 x CC" and around the extension's four bytes.
pub fn lengths() -> Vec<Vec<u8>> {
    let mut packets: Vec<Vec<u8>> = (0..13).map(|len| FIXED[..len].to_vec()).collect();
    for first in 0..=255u8 {
        let end = 12 + 4 * usize::from(first & 15);
        let tail: Vec<u8> = (1..80).collect();
        let whole = [&[first, 0xE0 | first], &tail[..]].concat();
        let ends = if first & 0x10 == 0 { end - 1..end + 2 } else { end - 1..end + 5 };
        // Other versions are read alike; one CC of each will do.
        if first >> 6 == 2 || first & 15 == 1 {
            packets.extend(ends.map(|len| whole[..len].to_vec()));
        }
    }
    packets
}

/// Blocks of one word over bytes that mean something, with a short payload behind.
pub fn blocks() -> Vec<Vec<u8>> {
    let tail = [0x21, 0x22, 0x23];
    let word = |profile, block: &Vec<u8>| extended(profile, 1, &[&block[..], &tail].concat());
    let one_byte = strings(&[0x00, 0x01, 0x10, 0x23, 0xF1], 4);
    let two_byte = strings(&[0x00, 0x01, 0x02, 0x05], 4);
    let mut packets: Vec<Vec<u8>> = one_byte.iter().map(|block| word(0xBEDE, block)).collect();
    packets.extend(two_byte.iter().map(|block| word(0x1000, block)));
    packets
}

/// Every first byte of a one-byte block, with data enough, just enough and one too few.
pub fn heads() -> Vec<Vec<u8>> {
    let data: Vec<u8> = (0x31..0x31 + 20).collect();
    let mut packets = vec![];
    for head in 0..=255u8 {
        let exact = usize::from(head & 15) + 1;
        for len in [exact - 1, exact, 20] {
            // The word itself holds three bytes; of those with more and with less, some will do.
            if len == exact || head % 7 == 0 && len >= 3 {
                packets.push(extended(0xBEDE, 1, &[&[head], &data[..len.max(3)]].concat()));
            }
        }
    }
    packets
}

/// Two-byte elements of every length around what is left of the packet, the length byte itself
/// missing too.
pub fn two_byte_lengths() -> Vec<Vec<u8>> {
    let mut packets = vec![extended(0x1000, 1, &[0, 0, 0, 7])];
    for tail in [0, 1, 2, 5, 17] {
        for len in 0..=tail + 3 {
            let inside = [&[7, len as u8], &vec![0x44; 2 + tail][..]].concat();
            let outside = [&[0, 0, 0, 7, len as u8], &vec![0x45; tail][..]].concat();
            packets.extend([inside, outside].map(|rest| extended(0x1000, 1, &rest)));
        }
    }
    packets
}

/// Blocks as long as the packet, and up to a word longer; other profiles, with none to three words.
pub fn block_lengths() -> Vec<Vec<u8>> {
    let mut packets = vec![];
    for profile in [0xBEDE, 0x1000, 0x0000, 0x1001, 0x100F, 0x0FFF, 0xBEDF, 0xFFFF] {
        for words in 0..4usize {
            for len in (4 * words).saturating_sub(4)..4 * words + 3 {
                packets.push(extended(profile, words, &vec![0; len]));
            }
        }
        packets.push(extended(profile, 65_535, &[0; 8]));
    }
    packets
}

/// 32 elements and 33, 1,024 data bytes and 1,025, each with what may come behind.
pub fn limits() -> Vec<Vec<u8>> {
    let mut packets = two_byte_limits();
    for count in [31, 32, 33, 34] {
        let block: Vec<u8> = (0..count).flat_map(|i| [0x10, i]).collect();
        for end in [&[][..], &[0xF0, 0x10], &[0x1F], &[0x10, 0xAB]] {
            packets.push(whole(0xBEDE, [&block, end].concat()));
        }
    }
    packets.extend([255, 256, 257].map(|words| extended(0xABAC, words, &vec![0x66; 4 * words])));
    packets
}

fn two_byte_limits() -> Vec<Vec<u8>> {
    let two = |id: u8, len: u8| [&[id, len][..], &vec![id; usize::from(len)]].concat();
    let many = |count: u8, len: u8| (1..=count).flat_map(|id| two(id, len)).collect::<Vec<u8>>();
    let mut blocks = vec![many(31, 0), many(32, 0), many(33, 0), many(32, 1), many(33, 1)];
    blocks.push(many(32, 32));
    blocks.extend([3, 4, 5].map(|last| [many(4, 255), two(9, last)].concat()));
    let behind: [&[u8]; 5] = [&[], &[0x07, 0x00], &[0x07, 0xFF], &[0x07, 0x01, 0x55], &[0x07]];
    let ended = |block: &Vec<u8>| behind.map(|end| whole(0x1000, [block, end].concat()));
    blocks.iter().flat_map(ended).collect()
}

/// The block ends the packet. Zeros fill its last word, or its first where zeros behind would give
/// the last element what it lacks.
fn whole(profile: u16, mut block: Vec<u8>) -> Vec<u8> {
    let words = block.len().div_ceil(4);
    let lacking = matches!(block[..], [.., 0x07, 0xFF] | [.., 0x07] | [.., 0x1F]);
    let place = if lacking { 0 } else { block.len() };
    block.splice(place..place, vec![0; 4 * words - block.len()]);
    extended(profile, words, &block)
}

/// A packet that the RFCs call well formed, but for repeated ids.
pub fn lawful(random: &mut Random) -> Vec<u8> {
    let sources = random.pick(&[0, 0, 0, 1, 2, 15]);
    let mut packet = vec![0x80 | sources as u8, random.byte()];
    packet.extend(random.bytes(10 + 4 * sources));
    if !random.one_in(5) {
        packet[0] |= 0x10;
        packet.extend(block(random));
    }
    let len = random.below(9);
    packet.extend(random.bytes(len));
    if random.one_in(3) {
        packet[0] |= 0x20;
        let padding = 1 + random.below(5);
        packet.extend(vec![0; padding - 1]);
        packet.push(padding as u8);
    }
    packet
}

/// A block of random bytes, few of them large, with about as much behind as its elements may run
/// into.
pub fn random_block(random: &mut Random) -> Vec<u8> {
    let profile = random.pick(&[0xBEDE, 0xBEDE, 0x1000, 0x1000, 0xABAC]);
    let words = random.below(6);
    let len = 4 * words + random.below(24);
    let high = random.pick(&[0x06, 0x1F, 0x7F, 0xFF]);
    let rest: Vec<u8> = random.bytes(len).iter().map(|byte| byte & high).collect();
    extended(profile, words, &rest)
}

fn block(random: &mut Random) -> Vec<u8> {
    let profile: u16 = random.pick(&[0xBEDE, 0xBEDE, 0x1000, 0x1000, 0x1001, 0xABAC]);
    let mut body = vec![];
    for _ in 0..random.below(6) {
        body.extend(item(random, profile));
    }
    body.resize(body.len().next_multiple_of(4), 0);
    let words = (body.len() / 4) as u16;
    [&profile.to_be_bytes()[..], &words.to_be_bytes(), &body].concat()
}

fn item(random: &mut Random, profile: u16) -> Vec<u8> {
    if random.one_in(3) {
        return vec![0];
    }
    let (head, len) = match profile {
        0xBEDE => {
            let len = 1 + random.below(16);
            (vec![(1 + random.below(14) as u8) << 4 | (len - 1) as u8], len)
        }
        0x1000 => {
            let len = random.pick(&[0, 1, 2, 3, 16, 17, 30]);
            (vec![1 + random.below(255) as u8, len as u8], len)
        }
        _ => (vec![], 4),
    };
    [head, random.bytes(len)].concat()
}
