//! A packet, read as the paper's sections "Header" and "Packet" say.

use crate::{refuse, Refusal};

const LONGEST_PACKET: usize = 65_535;
const MOST_ELEMENTS: usize = 32;
const MOST_DATA: usize = 1_024;

/// What the joiner looks at.
#[derive(Debug, PartialEq)]
pub struct Packet {
    pub source: u32,
    pub number: u16,
    pub time: u32,
    pub payload: Vec<u8>,
}

/// "Reading: 1, 2, then per element 3, 7, then 4"; 8 first.
pub fn read(bytes: &[u8]) -> Result<Packet, Refusal> {
    if bytes.len() > LONGEST_PACKET {
        return refuse(8);
    }
    if bytes.len() < 4 {
        return refuse(1);
    }
    let fixed = 12 + 4 * usize::from(bytes[0] & 0x0F);
    if bytes.len() < fixed {
        return refuse(1);
    }
    let extended = bytes[0] & 0x10 != 0;
    let at = if extended { behind_extension(bytes, fixed)? } else { fixed };
    let padded = bytes[0] & 0x20 != 0;
    Ok(Packet {
        source: u32::from_be_bytes([bytes[8], bytes[9], bytes[10], bytes[11]]),
        number: u16::from_be_bytes([bytes[2], bytes[3]]),
        time: u32::from_be_bytes([bytes[4], bytes[5], bytes[6], bytes[7]]),
        payload: if padded { stripped(&bytes[at..])? } else { bytes[at..].to_vec() },
    })
}

/// "With the padding bit, the last byte n strips n bytes; n = 0 strips nothing; an empty payload or n too large is 4."
fn stripped(payload: &[u8]) -> Result<Vec<u8>, Refusal> {
    let Some(last) = payload.last() else {
        return refuse(4);
    };
    match payload.len().checked_sub(usize::from(*last)) {
        Some(left) => Ok(payload[..left].to_vec()),
        None => refuse(4),
    }
}

/// Where the payload starts behind an extension that stands at a place.
fn behind_extension(bytes: &[u8], at: usize) -> Result<usize, Refusal> {
    let start = at + 4;
    if bytes.len() < start {
        return refuse(2);
    }
    let profile = u16::from_be_bytes([bytes[at], bytes[at + 1]]);
    let end = start + 4 * usize::from(u16::from_be_bytes([bytes[at + 2], bytes[at + 3]]));
    if bytes.len() < end {
        return refuse(2);
    }
    match profile {
        0xBEDE => behind_elements(bytes, start, end, one_byte),
        0x1000 => behind_elements(bytes, start, end, two_byte),
        _ if end - start > MOST_DATA => refuse(7),
        _ => Ok(end),
    }
}

enum Element {
    /// Its data's place and length.
    Data(usize, usize),
    Stop,
}

/// "id is the high four bits, length the low four plus 1. Id 15 ends reading at once."
fn one_byte(bytes: &[u8], at: usize) -> Result<Element, Refusal> {
    match bytes[at] >> 4 {
        15 => Ok(Element::Stop),
        _ => Ok(Element::Data(at + 1, usize::from(bytes[at] & 0x0F) + 1)),
    }
}

/// "id, length byte, data".
fn two_byte(bytes: &[u8], at: usize) -> Result<Element, Refusal> {
    match bytes.get(at + 1) {
        Some(len) => Ok(Element::Data(at + 2, usize::from(*len))),
        None => refuse(3),
    }
}

type Form = fn(&[u8], usize) -> Result<Element, Refusal>;

/// "An element may run past the block into the payload."
fn behind_elements(bytes: &[u8], start: usize, end: usize, form: Form) -> Result<usize, Refusal> {
    let (mut at, mut elements, mut data) = (start, 0, 0);
    while at < end {
        if bytes[at] == 0 {
            at += 1;
            continue;
        }
        let Element::Data(place, len) = form(bytes, at)? else {
            return Ok(at + 1);
        };
        if place + len > bytes.len() {
            return refuse(3);
        }
        elements += 1;
        data += len;
        if elements > MOST_ELEMENTS || data > MOST_DATA {
            return refuse(7);
        }
        at = place + len;
    }
    Ok(at)
}
