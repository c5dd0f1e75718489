//! The paper's domain, and the limits behind its refusals 5 to 8, which the Rust has no counterpart
//! of. Written from the paper's words alone; no function here calls the Rust.

use crate::header::Header;

/// "packets up to 65,535 bytes", "a payload to be written up to 65,535"
pub fn packet(bytes: &[u8]) -> bool {
    bytes.len() <= 65_535
}

/// "frames up to 16,777,216; mtu 0 to 65,535"
pub fn frame(frame: &[u8], mtu: usize) -> bool {
    frame.len() <= 16_777_216 && mtu <= 65_535
}

/// "15 CSRCs; .. extensions_padding in any record up to 262,140"
pub fn record(header: &Header) -> bool {
    header.csrc.len() <= 15 && elements(header) && header.extensions_padding <= 262_140
}

/// "32 extension elements holding 1,024 data bytes in all"
pub fn elements(header: &Header) -> bool {
    hold(header.extensions.iter().map(|element| element.payload.len()))
}

/// "A record to be written has version 0 to 3, payload type 0 to 127"
pub fn written(header: &Header) -> bool {
    record(header) && header.version <= 3 && header.payload_type <= 127 && heads_can_say(header)
}

/// "in the one-byte profile ids 0 to 15 and lengths 1 to 16, in the two-byte profile lengths 0 to
/// 255"
fn heads_can_say(header: &Header) -> bool {
    header.extensions.iter().all(|element| match header.extension_profile {
        0xBEDE => element.id <= 15 && (1..=16).contains(&element.payload.len()),
        0x1000 => element.payload.len() <= 255,
        _ => true,
    })
}

/// Refusal 7 in reading: "per element 3, 7", so an element past the packet ends the count.
pub fn elements_read(packet: &[u8]) -> bool {
    hold(lengths_read(packet).into_iter())
}

fn hold(lengths: impl ExactSizeIterator<Item = usize>) -> bool {
    lengths.len() <= 32 && lengths.sum::<usize>() <= 1_024
}

/// The data lengths of the elements up to the first that lies past the packet.
fn lengths_read(packet: &[u8]) -> Vec<usize> {
    let Some((profile, mut place, end)) = block(packet) else {
        return vec![];
    };
    let mut lengths = vec![];
    while place < end {
        let first = packet[place];
        let (head, length) = match profile {
            0xBEDE | 0x1000 if first == 0 => {
                place += 1;
                continue;
            }
            0xBEDE if first >> 4 == 15 => break,
            0xBEDE => (1, usize::from(first & 15) + 1),
            0x1000 => match packet.get(place + 1) {
                Some(length) => (2, usize::from(*length)),
                None => break,
            },
            _ => return vec![end - place],
        };
        place += head + length;
        if place > packet.len() {
            break;
        }
        lengths.push(length);
    }
    lengths
}

/// Profile, first place and end of the extension block, where neither 1 nor 2 comes first.
fn block(packet: &[u8]) -> Option<(u16, usize, usize)> {
    let first = packet.first()?;
    let place = 12 + 4 * usize::from(first & 15);
    let head = packet.get(place..place + 4).filter(|_| first & 0x10 != 0)?;
    let words = usize::from(u16::from_be_bytes([head[2], head[3]]));
    let end = place + 4 + 4 * words;
    let profile = u16::from_be_bytes([head[0], head[1]]);
    (end <= packet.len()).then_some((profile, place + 4, end))
}

/// "a saved SPS and PPS of 1,024 bytes each"
pub fn saved(set: &[u8]) -> bool {
    set.len() <= 1_024
}

/// Refusal 7 in sending: "an SPS or PPS to be saved is over 1,024"; "mtu 0 .. saves nothing".
pub fn sets_saved(frame: &[u8], mtu: usize) -> bool {
    let is_set = |unit: &[u8]| matches!(unit.first().map(|first| first & 31), Some(7 | 8));
    mtu == 0 || units(frame).into_iter().all(|unit| !is_set(unit) || saved(unit))
}

/// "A start code is two or more zeros and a 1. .. Bytes before the first code are ignored;
/// without a code the frame is one unit."
fn units(frame: &[u8]) -> Vec<&[u8]> {
    let mut units = vec![];
    let mut begin = None;
    let mut zeros = 0;
    for (place, byte) in frame.iter().enumerate() {
        if *byte == 1 && zeros >= 2 {
            units.extend(begin.map(|begin| &frame[begin..place - zeros]));
            begin = Some(place + 1);
        }
        zeros = if *byte == 0 { zeros + 1 } else { 0 };
    }
    units.push(&frame[begin.unwrap_or(0)..]);
    units
}

/// "output buffer, or table of packet ends, too small" is 5.
pub fn packets_fit<P: AsRef<[u8]>>(packets: &[P], (output, ends): (usize, usize)) -> bool {
    let total: usize = packets.iter().map(|packet| packet.as_ref().len()).sum();
    total <= output && packets.len() <= ends
}

/// A run that the reader's record can hold: "lengths in a record that lie within .. the lent
/// buffers".
pub fn run(run: &[u8], gather: usize) -> bool {
    run.len() <= gather.min(16_777_215)
}

/// "gather buffer too small for the fragments, or the run over 16,777,215 bytes" is 6.
pub fn run_grows(run: &[u8], packet: &[u8], gather: usize) -> bool {
    let is_fragment = packet[0] & 31 == 28;
    !is_fragment || run.len() + packet.len() - 2 <= gather.min(16_777_215)
}

/// "a VP8 picture id up to 32,767"
pub fn picture_id(picture_id: u16) -> bool {
    picture_id <= 32_767
}
