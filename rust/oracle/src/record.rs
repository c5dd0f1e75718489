//! A header as twelve tokens.

use bytes::{Buf, Bytes};

use crate::header::{Extension, Header};
use crate::refusal::Refusal;
use crate::text::{hex, Tokens};

pub(crate) fn read(tokens: &mut Tokens) -> Result<Header, Refusal> {
    Ok(Header {
        version: tokens.number()?,
        padding: tokens.flag()?,
        extension: tokens.flag()?,
        marker: tokens.flag()?,
        payload_type: tokens.number()?,
        sequence_number: tokens.number()?,
        timestamp: tokens.number()?,
        ssrc: tokens.number()?,
        csrc: sources(tokens.bytes()?).ok_or(Refusal::BadQuestion)?,
        extension_profile: tokens.number()?,
        extensions: elements(tokens.bytes()?).ok_or(Refusal::BadQuestion)?,
        extensions_padding: tokens.number()?,
    })
}

fn sources(bytes: Bytes) -> Option<Vec<u32>> {
    let words = bytes.chunks(4);
    words.map(|word| Some(u32::from_be_bytes(word.try_into().ok()?))).collect()
}

fn elements(mut bytes: Bytes) -> Option<Vec<Extension>> {
    let mut elements = vec![];
    while bytes.has_remaining() {
        if bytes.remaining() < 3 {
            return None;
        }
        let id = bytes.get_u8();
        let len = usize::from(bytes.get_u16());
        if bytes.remaining() < len {
            return None;
        }
        let payload = bytes.split_to(len);
        elements.push(Extension { id, payload });
    }
    Some(elements)
}

pub fn text(header: &Header) -> String {
    let sources: Vec<u8> = header.csrc.iter().flat_map(|source| source.to_be_bytes()).collect();
    format!(
        "{} {} {} {} {} {} {} {} {} {} {} {}",
        header.version,
        u8::from(header.padding),
        u8::from(header.extension),
        u8::from(header.marker),
        header.payload_type,
        header.sequence_number,
        header.timestamp,
        header.ssrc,
        hex(&sources),
        header.extension_profile,
        hex(&element_bytes(&header.extensions)),
        header.extensions_padding,
    )
}

fn element_bytes(elements: &[Extension]) -> Vec<u8> {
    let mut bytes = vec![];
    for Extension { id, payload } in elements {
        let len = u16::try_from(payload.len()).expect("two bytes for an element's length");
        bytes.push(*id);
        bytes.extend(len.to_be_bytes());
        bytes.extend(payload);
    }
    bytes
}
