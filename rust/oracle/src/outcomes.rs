//! What became of each unit of a frame and of the pair before it, told from the Rust's packets
//! alone: each unit is sent once more, as a frame of its own.

use bytes::Bytes;

use crate::error::Result;
use crate::h264::{H264Payloader, NALU_TYPE_BITMASK, OUTPUT_STAP_AHEADER};
use crate::packetizer::Payloader;

#[derive(Clone, Copy, Debug, Eq, PartialEq)]
pub enum Unit {
    Empty,
    /// An access unit delimiter or filler data: its type.
    DroppedByType(u8),
    /// A parameter set: its type.
    Saved(u8),
    Alone,
    InFragments,
    DroppedForMtu,
}

#[derive(Clone, Copy, Debug, Eq, PartialEq)]
pub enum Pair {
    NotDue,
    Sent,
    DroppedForMtu,
}

#[derive(Clone, Copy, Debug, Eq, PartialEq)]
pub struct Outcome {
    /// What became of the unit itself.
    pub unit: Unit,
    /// What became of the pair before it, if one was due.
    pub pair: Pair,
}

/// What was dropped for the mtu.
#[derive(Clone, Copy, Debug, Default, Eq, PartialEq)]
pub struct Drops {
    /// Units that were to be sent and have no packet.
    pub units: usize,
    /// Pairs that were due and have no STAP-A.
    pub pairs: usize,
}

/// A frame that was sent.
#[derive(Debug)]
pub struct Sent {
    /// As the Rust sent it whole.
    pub packets: Vec<Bytes>,
    /// Of its units in order: none at mtu 0, and none of an empty frame.
    pub outcomes: Vec<Outcome>,
}

impl Sent {
    pub fn drops(&self) -> Drops {
        let count = |is: fn(&Outcome) -> bool| self.outcomes.iter().filter(|each| is(each)).count();
        Drops {
            units: count(|each| each.unit == Unit::DroppedForMtu),
            pairs: count(|each| each.pair == Pair::DroppedForMtu),
        }
    }
}

/// Sends a frame whole, and its units one by one by another sender in the same state: both must send
/// the same packets, and hold the same sets afterwards.
pub fn send(sender: &mut H264Payloader, mtu: usize, frame: &Bytes) -> Result<Sent> {
    let mut one_by_one = sender.clone();
    let packets = sender.payload(mtu, frame)?;
    let mut outcomes = vec![];
    if mtu == 0 || frame.is_empty() {
        return Ok(Sent { packets, outcomes });
    }
    let mut again = vec![];
    for unit in units(frame) {
        let before = one_by_one.clone();
        let alone = one_by_one.payload(mtu, &unit)?;
        outcomes.push(outcome(&unit, before, &alone, one_by_one.clone().held()));
        again.extend(alone);
    }
    assert_eq!(again, packets, "the units' packets are the frame's");
    assert_eq!(one_by_one.held(), sender.clone().held(), "and the sets are");
    Ok(Sent { packets, outcomes })
}

/// Cut as the Rust's `payload` does: what stands before the first start code is left out, and
/// without a code the frame is one unit.
fn units(frame: &Bytes) -> Vec<Bytes> {
    let Some((place, len)) = H264Payloader::start_code(frame, 0) else {
        return vec![frame.clone()];
    };
    let (mut units, mut start) = (vec![], place + len);
    while let Some((place, len)) = H264Payloader::start_code(frame, start) {
        units.push(frame.slice(start..place));
        start = place + len;
    }
    units.push(frame.slice(start..));
    units
}

/// The packet of a pair.
fn stap_a(sps: &Bytes, pps: &Bytes) -> Bytes {
    let size = |set: &Bytes| (set.len() as u16).to_be_bytes();
    Bytes::from([&[OUTPUT_STAP_AHEADER][..], &size(sps), sps, &size(pps), pps].concat())
}

type Sets = (Bytes, Bytes);

/// What became of a unit, and of the pair at it, by these packets and by the sets held afterwards.
fn outcome(unit: &Bytes, before: H264Payloader, packets: &[Bytes], after: Sets) -> Outcome {
    let due = before.waiting().map(|(sps, pps)| stap_a(sps, pps));
    let (sps, pps) = before.held();
    let unsent = |unit, sets: Sets| {
        assert!(packets.is_empty(), "{unit:?}, and a packet");
        assert_eq!(after, sets, "{unit:?}, and the sets");
        Outcome { unit, pair: Pair::NotDue }
    };
    match unit.first().map(|first| first & NALU_TYPE_BITMASK) {
        None => unsent(Unit::Empty, (sps, pps)),
        Some(kind @ (9 | 12)) => unsent(Unit::DroppedByType(kind), (sps, pps)),
        Some(kind @ 7) => unsent(Unit::Saved(kind), (unit.clone(), pps)),
        Some(kind @ 8) => unsent(Unit::Saved(kind), (sps, unit.clone())),
        Some(_) => {
            // "The pair is forgotten either way"; a set without the other waits on.
            assert_eq!(after, if due.is_some() { Sets::default() } else { (sps, pps) });
            of_sent(unit, due, packets)
        }
    }
}

/// What became of a unit that is to be sent, and of the pair whose packet was due before it.
fn of_sent(unit: &Bytes, due: Option<Bytes>, packets: &[Bytes]) -> Outcome {
    // A unit that is itself such a packet comes second, or in fragments, which begin otherwise.
    let (pair, own) = match (&due, packets) {
        (None, _) => (Pair::NotDue, packets),
        (Some(due), [first, rest @ ..]) if first == due => (Pair::Sent, rest),
        (Some(_), _) => (Pair::DroppedForMtu, packets),
    };
    let unit = match own {
        [] => Unit::DroppedForMtu,
        [whole] if whole == unit => Unit::Alone,
        _ => Unit::InFragments,
    };
    Outcome { unit, pair }
}
