//! Questions about packets.

use bytes::Bytes;
use util::marshal::{MarshalSize, Unmarshal};

use super::header::{place_and_header, written_over};
use super::Answer;
use crate::header::Header;
use crate::limits;
use crate::packet::Packet;
use crate::record;
use crate::refusal::{caught, Refusal};
use crate::text::Tokens;
use crate::Judge;

pub fn answer(judge: Judge, call: &str, tokens: &mut Tokens) -> Answer {
    match call {
        "read" => read(judge, tokens.bytes()?),
        "size" => size(judge, record::read(tokens)?, tokens.bytes()?),
        "write" => {
            let (header, payload) = (record::read(tokens)?, tokens.bytes()?);
            write(judge, header, payload, tokens.buffer_len()?, tokens.number()?)
        }
        _ => Err(Refusal::BadQuestion),
    }
}

fn read(judge: Judge, bytes: Bytes) -> Answer {
    judge.domain(limits::packet(&bytes))?;
    judge.limit(7, limits::elements_read(&bytes))?;
    let packet = caught(3, || Packet::unmarshal(&mut bytes.clone()))?;
    let (place, header) = place_and_header(&bytes)?;
    let len = packet.payload.len();
    assert_eq!(packet.header, header);
    assert_eq!(packet.payload, bytes[place..place + len]);
    Ok(format!("ok {place} {len} {}", record::text(&header)))
}

fn size(judge: Judge, header: Header, payload: Bytes) -> Answer {
    judge.domain(limits::record(&header) && limits::packet(&payload))?;
    Ok(format!("ok {}", Packet { header, payload }.marshal_size()))
}

fn write(judge: Judge, header: Header, payload: Bytes, len: usize, fill: u8) -> Answer {
    judge.domain(limits::written(&header) && limits::packet(&payload))?;
    written_over(&Packet { header, payload }, len, fill)
}
