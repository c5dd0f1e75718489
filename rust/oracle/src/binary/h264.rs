//! H.264.

use bytes::Bytes;
use rows::{Fields, FILL, NOTHING};

use super::{rooms, Both, Told};
use crate::text::Tokens;

pub fn next(fields: Fields, mut asked: Tokens, mut told: Told) -> Both {
    let question = fields.bytes(asked.bytes()?).number(asked.number()?);
    if told.word == "none" {
        return Ok((question, Fields::answer([NOTHING, 0, 0, 0])));
    }
    let found = [told.number()?, told.number()?, 0];
    Ok((question, told.or(found)))
}

pub fn send(fields: Fields, mut asked: Tokens, mut told: Told) -> Both {
    let mtu: u64 = asked.number()?;
    let before = [asked.bytes()?, asked.bytes()?];
    let question = fields.number(mtu).bytes(asked.bytes()?).numbers(rooms(&mut asked)?);
    let set = |fields: Fields, set: &Bytes| fields.number(set.len() as u64).bytes(set);
    let question = before.iter().fold(question, set);
    let after = [told.bytes()?, told.bytes()?];
    let (units, pairs) = (told.number()?, told.number()?);
    let (out, ends) = told.packets()?;
    let answer = told.or([ends.len() as u64, out.len() as u64, units]).bytes(out).words(ends);
    // Unless it refuses, the sender is laid out anew, with zeros behind its sets.
    let (sets, behind) = if told.refusal.is_some() { (before, FILL) } else { (after, 0) };
    let whole_set = |fields: Fields, each: &Bytes| set(fields, each).number(behind.into());
    Ok((question, sets.iter().fold(answer, whole_set).number(pairs)))
}

pub fn read(fields: Fields, mut asked: Tokens, mut told: Told) -> Both {
    let (avc, run): (u64, _) = (asked.number()?, asked.bytes()?);
    let payload = asked.bytes()?;
    let question = fields.bytes(&payload).numbers(rooms(&mut asked)?);
    let question = question.number(avc).number(run.len() as u64).bytes(&run);
    let (left, out) = (told.bytes()?, told.bytes()?);
    let answer = told.or([out.len() as u64, 0, 0]).bytes(&out);
    if told.refusal.is_some() {
        return Ok((question, answer.bytes(&run).bytes([]).number(avc).number(run.len() as u64)));
    }
    let read = Read::of(&run, &payload);
    assert_eq!(left, read.left);
    assert!(read.body.is_empty() || out[5..] == read.body);
    let answer = answer.bytes(read.gather).bytes(read.body);
    Ok((question, answer.number(avc).number(left.len() as u64)))
}

/// What reading a payload leaves.
struct Read {
    /// The gather buffer's front.
    gather: Vec<u8>,
    /// How much of it is gathered.
    left: Vec<u8>,
    /// "The body is all after the unit's first byte; a packet that completes neither shows an empty part."
    body: Vec<u8>,
}

impl Read {
    fn of(run: &[u8], payload: &[u8]) -> Self {
        match payload[0] & 31 {
            // "It gathers FU-A data regardless of the start bit"
            28 => {
                let gather = [run, &payload[2..]].concat();
                if payload[1] & 0x40 == 0 {
                    return Read { left: gather.clone(), gather, body: vec![] };
                }
                Read { body: gather.clone(), gather, left: vec![] }
            }
            24 => Read { gather: run.to_vec(), left: run.to_vec(), body: vec![] },
            _ => Read { gather: run.to_vec(), left: run.to_vec(), body: payload[1..].to_vec() },
        }
    }
}
