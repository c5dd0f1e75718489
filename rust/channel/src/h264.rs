//! An H.264 payload, and what it does to the open run.

use crate::{refuse, refuse_with, Refusal};

/// The forbidden bit F: a relay sets it "on packets it saw damaged".
pub const FORBIDDEN: u8 = 0x80;

/// The fragments of a unit whose last is still to come.
#[derive(Clone, Debug, Default, PartialEq)]
pub struct OpenRun {
    pub bytes: Vec<u8>,
    /// one of them had its forbidden bit set
    pub marked: bool,
    /// the timestamp that they share, any number
    pub time: u32,
}

/// What a payload does.
#[derive(Debug, PartialEq)]
pub struct Fate {
    /// the run that is open afterwards
    pub run: Option<OpenRun>,
    /// what was gathered of a unit, its last fragment included
    pub gathered: Vec<u8>,
    /// the units handed out
    pub units: Vec<Vec<u8>>,
}

/// "H.264 reading: 4, 19, 17 or 18 at the first place", "with 21 before 17", and 25 "after 21". The time is the packet's.
pub fn feed(run: Option<OpenRun>, time: u32, payload: &[u8]) -> Result<Fate, Refusal> {
    let kind = payload.first().map_or(0, |first| first & 0x1F);
    match payload.len() {
        0 | 1 => return refuse(4),
        2 if kind != 9 => return refuse(4),
        _ => {}
    }
    match kind {
        1..=23 => Ok(handed_out(vec![payload.to_vec()])),
        24 => Ok(handed_out(units_of(&payload[1..])?)),
        28 => fragment(run, time, payload),
        _ => refuse_with(19, &[usize::from(kind)]),
    }
}

/// "Plain units and STAP-A drop the run and are handed out".
fn handed_out(units: Vec<Vec<u8>>) -> Fate {
    Fate { run: None, gathered: vec![], units }
}

/// The units of a STAP-A behind its first byte.
fn units_of(mut rest: &[u8]) -> Result<Vec<Vec<u8>>, Refusal> {
    let mut units = vec![];
    while !rest.is_empty() {
        if rest.len() == 1 {
            return refuse(18);
        }
        let size = usize::from(rest[0]) * 256 + usize::from(rest[1]);
        rest = &rest[2..];
        if size > rest.len() {
            return refuse_with(17, &[size, rest.len()]);
        }
        units.push(rest[..size].to_vec());
        rest = &rest[size..];
    }
    Ok(units)
}

/// "A start fragment replaces the run; a continuation without a run yields nothing; the end bit hands the unit out, its first byte
/// being NRI and type"; E3: "the rebuilt top bit is set if any fragment of the unit had it set"; E4: "A continuation that follows
/// without a gap but carries another timestamp is refused".
fn fragment(run: Option<OpenRun>, time: u32, payload: &[u8]) -> Result<Fate, Refusal> {
    let (start, end) = (payload[1] & 0x80 != 0, payload[1] & 0x40 != 0);
    if start && end {
        return refuse(21);
    }
    let before = if start { Some(OpenRun { time, ..OpenRun::default() }) } else { run };
    let Some(before) = before else {
        return Ok(handed_out(vec![]));
    };
    if time != before.time {
        return refuse(25);
    }
    let gathered = [&before.bytes[..], &payload[2..]].concat();
    let marked = before.marked || payload[0] & FORBIDDEN != 0;
    if !end {
        let run = OpenRun { bytes: gathered.clone(), marked, time };
        return Ok(Fate { run: Some(run), gathered, units: vec![] });
    }
    let top = if marked { FORBIDDEN } else { 0 };
    let first = top | (payload[0] & 0x60) | (payload[1] & 0x1F);
    let unit = [&[first], &gathered[..]].concat();
    Ok(Fate { run: None, gathered, units: vec![unit] })
}

/// "Each unit follows 00 00 00 01".
pub fn annex_b(units: &[Vec<u8>]) -> Vec<u8> {
    units.iter().flat_map(|unit| [&[0, 0, 0, 1], &unit[..]].concat()).collect()
}
