//! Questions about H.264 payloads.

use bytes::Bytes;

use super::Answer;
use crate::h264::{H264Packet, H264Payloader};
use crate::limits;
use crate::outcomes::{self, Drops};
use crate::packetizer::Depacketizer;
use crate::refusal::{caught, Refusal};
use crate::text::{hex, packets, Tokens};
use crate::Judge;

pub fn answer(judge: Judge, call: &str, tokens: &mut Tokens) -> Answer {
    match call {
        "next" => next(judge, tokens.bytes()?, tokens.number()?),
        "send" => {
            let (mtu, sps, pps) = (tokens.number()?, tokens.bytes()?, tokens.bytes()?);
            send(judge, mtu, [sps, pps], tokens.bytes()?, tokens.room()?)
        }
        "read" => {
            let (is_avc, run) = (tokens.flag()?, tokens.bytes()?);
            read(judge, is_avc, run, tokens.bytes()?, tokens.room()?)
        }
        "head" => head(judge, tokens.bytes()?),
        "tail" => tail(tokens.flag()?),
        _ => Err(Refusal::BadQuestion),
    }
}

fn next(judge: Judge, frame: Bytes, start: usize) -> Answer {
    judge.domain(limits::frame(&frame, 0) && start <= frame.len())?;
    Ok(match H264Payloader::start_code(&frame, start) {
        Some((place, len)) => format!("at {place} {len}"),
        None => "none".to_string(),
    })
}

fn send(judge: Judge, mtu: usize, sets: [Bytes; 2], frame: Bytes, room: (usize, usize)) -> Answer {
    judge.domain(limits::frame(&frame, mtu) && sets.iter().all(|set| limits::saved(set)))?;
    judge.limit(7, limits::sets_saved(&frame, mtu))?;
    let [sps, pps] = sets;
    let mut sender = H264Payloader::holding(sps, pps);
    let sent = outcomes::send(&mut sender, mtu, &frame)?;
    judge.limit(5, limits::packets_fit(&sent.packets, room))?;
    let (sps, pps) = sender.held();
    let Drops { units, pairs } = sent.drops();
    let packets = packets(&sent.packets);
    Ok(format!("ok {} {} {units} {pairs} {packets}", hex(&sps), hex(&pps)))
}

fn read(judge: Judge, is_avc: bool, run: Bytes, packet: Bytes, room: (usize, usize)) -> Answer {
    let (gather, output) = room;
    judge.domain(limits::packet(&packet) && limits::run(&run, gather))?;
    let mut reader = H264Packet::gathering(is_avc, run.clone());
    let out = caught(18, || reader.depacketize(&packet))?;
    judge.limit(6, limits::run_grows(&run, &packet, gather))?;
    judge.limit(5, out.len() <= output)?;
    Ok(format!("ok {} {}", hex(&reader.gathered()), hex(&out)))
}

fn head(judge: Judge, payload: Bytes) -> Answer {
    judge.domain(limits::packet(&payload))?;
    let head = H264Packet::default().is_partition_head(&payload);
    Ok(u8::from(head).to_string())
}

fn tail(marker: bool) -> Answer {
    let tail = H264Packet::default().is_partition_tail(marker, &Bytes::new());
    Ok(u8::from(tail).to_string())
}
