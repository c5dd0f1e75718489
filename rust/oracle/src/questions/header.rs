//! Questions about headers.

use bytes::Bytes;
use util::marshal::{Marshal, MarshalSize, Unmarshal};

use super::Answer;
use crate::header::Header;
use crate::limits;
use crate::record;
use crate::refusal::{caught, Refusal};
use crate::text::{hex, Tokens};
use crate::Judge;

pub fn answer(judge: Judge, call: &str, tokens: &mut Tokens) -> Answer {
    match call {
        "read" => read(judge, tokens.bytes()?),
        "size" => size(judge, record::read(tokens)?),
        "len" => len(judge, record::read(tokens)?),
        "write" => {
            let header = record::read(tokens)?;
            write(judge, header, tokens.buffer_len()?, tokens.number()?)
        }
        "set" => {
            let header = record::read(tokens)?;
            set(judge, header, tokens.number()?, tokens.bytes()?)
        }
        "del" => del(judge, record::read(tokens)?, tokens.number()?),
        "get" => get(judge, record::read(tokens)?, tokens.number()?),
        "ids" => ids(judge, record::read(tokens)?),
        _ => Err(Refusal::BadQuestion),
    }
}

fn read(judge: Judge, packet: Bytes) -> Answer {
    judge.domain(limits::packet(&packet))?;
    judge.limit(7, limits::elements_read(&packet))?;
    let (place, header) = place_and_header(&packet)?;
    Ok(format!("ok {place} {}", record::text(&header)))
}

/// The payload's place is what the Rust has taken off the front.
pub fn place_and_header(packet: &Bytes) -> Result<(usize, Header), Refusal> {
    let mut rest = packet.clone();
    let header = caught(3, || Header::unmarshal(&mut rest))?;
    Ok((packet.len() - rest.len(), header))
}

fn size(judge: Judge, header: Header) -> Answer {
    judge.domain(limits::record(&header))?;
    Ok(format!("ok {}", header.marshal_size()))
}

fn len(judge: Judge, header: Header) -> Answer {
    judge.domain(limits::record(&header))?;
    Ok(format!("ok {}", header.get_extension_payload_len()))
}

fn write(judge: Judge, header: Header, len: usize, fill: u8) -> Answer {
    judge.domain(limits::written(&header))?;
    written_over(&header, len, fill)
}

pub fn written_over(whole: &impl Marshal, len: usize, fill: u8) -> Answer {
    let mut buffer = vec![fill; len];
    let count = whole.marshal_to(&mut buffer)?;
    Ok(format!("ok {count} {}", hex(&buffer)))
}

fn set(judge: Judge, mut header: Header, id: u8, payload: Bytes) -> Answer {
    judge.domain(limits::record(&header))?;
    header.set_extension(id, payload)?;
    judge.limit(7, limits::elements(&header))?;
    Ok(format!("ok {}", record::text(&header)))
}

fn del(judge: Judge, mut header: Header, id: u8) -> Answer {
    judge.domain(limits::record(&header))?;
    header.del_extension(id)?;
    Ok(format!("ok {}", record::text(&header)))
}

fn get(judge: Judge, header: Header, id: u8) -> Answer {
    judge.domain(limits::record(&header))?;
    Ok(match header.get_extension(id) {
        Some(payload) => format!("ok {}", hex(&payload)),
        None => "none".to_string(),
    })
}

fn ids(judge: Judge, header: Header) -> Answer {
    judge.domain(limits::record(&header))?;
    Ok(format!("ok {}", hex(&header.get_extension_ids())))
}
