//! The limits by name. Whether an input passes one is judged by `oracle::limits`, which is written from the paper; here is said
//! which one it is.

use oracle::header::{Extension, Header};
use oracle::limits;

use crate::verdict::Limit;

const ONE_BYTE_PAST: Limit = Limit(3, "one-byte element past the packet");
const TWO_BYTE_PAST: Limit = Limit(3, "two-byte element past the packet");
const OUTPUT: Limit = Limit(5, "lent output too small");
const ENDS: Limit = Limit(5, "lent table of ends too small");
const GATHER: Limit = Limit(6, "lent gather buffer too small");
const RUN: Limit = Limit(6, "run over 16,777,215 bytes");
const COUNT_READ: Limit = Limit(7, "over 32 elements or 1,024 data bytes read");
const COUNT_SET: Limit = Limit(7, "over 32 elements or 1,024 data bytes set");
const SETS: Limit = Limit(7, "SPS or PPS over 1,024 bytes");
const PACKET: Limit = Limit(8, "packet or payload over 65,535 bytes");
const MTU: Limit = Limit(8, "mtu over 65,535");
const FRAME: Limit = Limit(8, "frame over 16,777,216 bytes");
const PICTURE_ID: Limit = Limit(8, "picture id over 32,767");
const SOURCES: Limit = Limit(8, "record of over 15 CSRCs");
const COUNT: Limit = Limit(8, "record of over 32 elements");
const DATA: Limit = Limit(8, "record of over 1,024 data bytes");
const PADDING: Limit = Limit(8, "extensions_padding over 262,140");
const VERSION: Limit = Limit(8, "version over 3");
const PAYLOAD_TYPE: Limit = Limit(8, "payload type over 127");
const ONE_BYTE_EMPTY: Limit = Limit(8, "one-byte element of 0 bytes");
const ONE_BYTE_LONG: Limit = Limit(8, "one-byte element over 16 bytes");
const ONE_BYTE_ID: Limit = Limit(8, "one-byte id over 15");
const TWO_BYTE_LONG: Limit = Limit(8, "two-byte element over 255 bytes");
pub const SIZE_CUT: Limit = Limit(18, "one byte left for a STAP-A size");

/// All of them; a long run meets each.
pub const ALL: [Limit; 24] = [
    ONE_BYTE_PAST,
    TWO_BYTE_PAST,
    OUTPUT,
    ENDS,
    GATHER,
    RUN,
    COUNT_READ,
    COUNT_SET,
    SETS,
    PACKET,
    MTU,
    FRAME,
    PICTURE_ID,
    SOURCES,
    COUNT,
    DATA,
    PADDING,
    VERSION,
    PAYLOAD_TYPE,
    ONE_BYTE_EMPTY,
    ONE_BYTE_LONG,
    ONE_BYTE_ID,
    TWO_BYTE_LONG,
    SIZE_CUT,
];

pub fn packet(bytes: &[u8]) -> Option<Limit> {
    PACKET.unless(limits::packet(bytes))
}

/// Of bytes to be read as a header or a packet.
pub fn reading(bytes: &[u8]) -> Option<Limit> {
    packet(bytes).or_else(|| COUNT_READ.unless(limits::elements_read(bytes)))
}

/// What a panic in reading stands for.
pub fn past(bytes: &[u8]) -> Option<Limit> {
    let place = 12 + 4 * usize::from(bytes.first()? & 15);
    match bytes.get(place..place + 2)? {
        [0xBE, 0xDE] => Some(ONE_BYTE_PAST),
        [0x10, 0x00] => Some(TWO_BYTE_PAST),
        _ => None,
    }
}

pub fn record(header: &Header) -> Option<Limit> {
    let which = match header {
        _ if header.csrc.len() > 15 => SOURCES,
        _ if header.extensions.len() > 32 => COUNT,
        _ if header.extensions_padding > 262_140 => PADDING,
        _ => DATA,
    };
    which.unless(limits::record(header))
}

/// Of the record that a set leaves.
pub fn set(header: &Header) -> Option<Limit> {
    COUNT_SET.unless(limits::elements(header))
}

/// Of a record to be written.
pub fn written(header: &Header) -> Option<Limit> {
    record(header).or_else(|| unwritable(header).unless(limits::written(header)))
}

fn unwritable(header: &Header) -> Limit {
    let any = |wrong: fn(&Extension) -> bool| header.extensions.iter().any(wrong);
    match header.extension_profile {
        _ if header.version > 3 => VERSION,
        _ if header.payload_type > 127 => PAYLOAD_TYPE,
        0xBEDE if any(|element| element.payload.is_empty()) => ONE_BYTE_EMPTY,
        0xBEDE if any(|element| element.payload.len() > 16) => ONE_BYTE_LONG,
        0xBEDE => ONE_BYTE_ID,
        _ => TWO_BYTE_LONG,
    }
}

pub fn frame(frame: &[u8], mtu: usize) -> Option<Limit> {
    let which = if mtu > 65_535 { MTU } else { FRAME };
    which.unless(limits::frame(frame, mtu))
}

/// Of an H.264 frame to be sent.
pub fn sending(bytes: &[u8], mtu: usize) -> Option<Limit> {
    frame(bytes, mtu).or_else(|| SETS.unless(limits::sets_saved(bytes, mtu)))
}

/// Of the buffers lent to a sender: how many bytes, how many ends.
pub fn sent<P: AsRef<[u8]>>(packets: &[P], room: (usize, usize)) -> Option<Limit> {
    let which = if packets.len() > room.1 { ENDS } else { OUTPUT };
    which.unless(limits::packets_fit(packets, room))
}

/// Of a reader's gather buffer of `room` bytes.
pub fn gathered(run: &[u8], packet: &[u8], room: usize) -> Option<Limit> {
    let which = if room > 16_777_215 { RUN } else { GATHER };
    which.unless(limits::run_grows(run, packet, room))
}

/// Of a reader's output.
pub fn handed_out(units: &[u8], room: usize) -> Option<Limit> {
    OUTPUT.unless(units.len() <= room)
}

pub fn picture_id(id: u16) -> Option<Limit> {
    PICTURE_ID.unless(limits::picture_id(id))
}
