//! Questions about VP8 payloads.

use bytes::Bytes;

use super::Answer;
use crate::limits;
use crate::packetizer::{Depacketizer, Payloader};
use crate::refusal::Refusal;
use crate::text::{packets, Tokens};
use crate::vp8::{Vp8Packet, Vp8Payloader};
use crate::Judge;

pub fn answer(judge: Judge, call: &str, tokens: &mut Tokens) -> Answer {
    match call {
        "send" => {
            let sender = Vp8Payloader::at(tokens.flag()?, tokens.number()?);
            let (mtu, frame) = (tokens.number()?, tokens.bytes()?);
            send(judge, sender, mtu, frame, tokens.room()?)
        }
        "read" => read(judge, fields(tokens)?, tokens.bytes()?),
        "head" => head(judge, tokens.bytes()?),
        "tail" => tail(tokens.flag()?),
        _ => Err(Refusal::BadQuestion),
    }
}

fn send(
    judge: Judge,
    mut sender: Vp8Payloader,
    mtu: usize,
    frame: Bytes,
    room: (usize, usize),
) -> Answer {
    judge.domain(limits::frame(&frame, mtu) && limits::picture_id(sender.picture_id()))?;
    let sent = sender.payload(mtu, &frame)?;
    judge.limit(5, limits::packets_fit(&sent, room))?;
    Ok(format!("ok {} {}", sender.picture_id(), packets(&sent)))
}

fn read(judge: Judge, mut reader: Vp8Packet, packet: Bytes) -> Answer {
    judge.domain(limits::packet(&packet) && limits::picture_id(reader.picture_id))?;
    match reader.depacketize(&packet) {
        Ok(payload) => {
            let each: Vec<String> = values(&reader).iter().map(usize::to_string).collect();
            Ok(format!("ok {} {}", packet.len() - payload.len(), each.join(" ")))
        }
        Err(error) => match Refusal::from(error) {
            Refusal::Number(number, _) => Err(Refusal::Number(number, values(&reader))),
            other => Err(other),
        },
    }
}

fn fields(tokens: &mut Tokens) -> Result<Vp8Packet, Refusal> {
    Ok(Vp8Packet {
        x: tokens.number()?,
        n: tokens.number()?,
        s: tokens.number()?,
        pid: tokens.number()?,
        i: tokens.number()?,
        l: tokens.number()?,
        t: tokens.number()?,
        k: tokens.number()?,
        picture_id: tokens.number()?,
        tl0_pic_idx: tokens.number()?,
        tid: tokens.number()?,
        y: tokens.number()?,
        key_idx: tokens.number()?,
    })
}

fn values(fields: &Vp8Packet) -> Vec<usize> {
    let Vp8Packet { x, n, s, pid, i, l, t, k, picture_id, tl0_pic_idx, tid, y, key_idx } = *fields;
    let bits = [x, n, s, pid, i, l, t, k].map(usize::from);
    let indices = [tl0_pic_idx, tid, y, key_idx].map(usize::from);
    [&bits[..], &[usize::from(picture_id)], &indices].concat()
}

fn head(judge: Judge, payload: Bytes) -> Answer {
    judge.domain(limits::packet(&payload))?;
    let head = Vp8Packet::default().is_partition_head(&payload);
    Ok(u8::from(head).to_string())
}

fn tail(marker: bool) -> Answer {
    let tail = Vp8Packet::default().is_partition_tail(marker, &Bytes::new());
    Ok(u8::from(tail).to_string())
}
