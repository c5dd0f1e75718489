//! What a list of H.264 sending has to ask about: every outcome of a unit and of a pair, and the
//! frames that are not looked at.

use std::collections::HashSet;

use bytes::Bytes;

use crate::h264::H264Payloader;
use crate::outcomes::{send, Outcome, Pair, Sent, Unit};
use crate::refusal::Refusal;
use crate::text::Tokens;

/// A frame that is sent, and what came of it.
struct Asked {
    mtu: usize,
    frame: Bytes,
    /// Both sets are saved beforehand.
    pair_waits: bool,
    sent: Sent,
}

type Test = fn(&Asked) -> bool;

/// What must occur, each by its name.
const OUTCOMES: [(&str, Test); 19] = [
    ("an empty unit", |asked| asked.unit(Unit::Empty)),
    ("a unit of type 9", |asked| asked.unit(Unit::DroppedByType(9))),
    ("a unit of type 12", |asked| asked.unit(Unit::DroppedByType(12))),
    ("an SPS that is saved", |asked| asked.unit(Unit::Saved(7))),
    ("a PPS that is saved", |asked| asked.unit(Unit::Saved(8))),
    ("a unit sent alone, with no pair due", |asked| asked.both(Unit::Alone, Pair::NotDue)),
    ("a unit sent alone behind its pair", |asked| asked.both(Unit::Alone, Pair::Sent)),
    ("a unit sent alone, its pair dropped", |asked| asked.both(Unit::Alone, Pair::DroppedForMtu)),
    ("a unit in fragments, with no pair due", |asked| asked.both(Unit::InFragments, Pair::NotDue)),
    ("a unit in fragments behind its pair", |asked| asked.both(Unit::InFragments, Pair::Sent)),
    ("a unit in fragments, its pair dropped", |asked| {
        asked.both(Unit::InFragments, Pair::DroppedForMtu)
    }),
    ("a unit dropped at mtu 1", |asked| asked.mtu == 1 && asked.unit(Unit::DroppedForMtu)),
    ("a unit dropped at mtu 2", |asked| asked.mtu == 2 && asked.unit(Unit::DroppedForMtu)),
    ("a unit dropped, with no pair due", |asked| asked.both(Unit::DroppedForMtu, Pair::NotDue)),
    ("a unit and its pair dropped", |asked| asked.both(Unit::DroppedForMtu, Pair::DroppedForMtu)),
    ("several units dropped of a frame", |asked| asked.sent.drops().units > 1),
    ("several pairs dropped of a frame", |asked| asked.sent.drops().pairs > 1),
    ("a frame at mtu 0, where a pair waits", |asked| {
        asked.mtu == 0 && asked.pair_waits && !asked.frame.is_empty()
    }),
    ("an empty frame, where a pair waits", |asked| {
        asked.mtu > 0 && asked.pair_waits && asked.frame.is_empty()
    }),
];

/// Refuses a list in which one of them does not occur, and says which.
pub fn all<'a>(rows: impl Iterator<Item = (&'a str, &'a str)>) -> Result<(), String> {
    let had: HashSet<&str> = rows.flat_map(|(question, answer)| of(question, answer)).collect();
    let names = OUTCOMES.iter().map(|(name, _)| *name);
    let missing: Vec<&str> = names.filter(|name| !had.contains(name)).collect();
    if missing.is_empty() {
        Ok(())
    } else {
        Err(format!("no question has {}", missing.join("; ")))
    }
}

/// Those that occur in a row: none where nothing is sent, or the frame is refused.
fn of(question: &str, answer: &str) -> Vec<&'static str> {
    match Asked::of(question) {
        Ok(asked) if answer.starts_with("ok") => {
            OUTCOMES.iter().filter(|(_, is)| is(&asked)).map(|(name, _)| *name).collect()
        }
        _ => vec![],
    }
}

impl Asked {
    fn of(question: &str) -> Result<Self, Refusal> {
        let mut tokens = Tokens::of(question);
        if tokens.word()? != "h264.send" {
            return Err(Refusal::BadQuestion);
        }
        let mtu = tokens.number()?;
        let mut sender = H264Payloader::holding(tokens.bytes()?, tokens.bytes()?);
        let frame = tokens.bytes()?;
        let pair_waits = sender.waiting().is_some();
        let sent = send(&mut sender, mtu, &frame)?;
        Ok(Asked { mtu, frame, pair_waits, sent })
    }

    fn unit(&self, unit: Unit) -> bool {
        self.sent.outcomes.iter().any(|each| each.unit == unit)
    }

    fn both(&self, unit: Unit, pair: Pair) -> bool {
        self.sent.outcomes.contains(&Outcome { unit, pair })
    }
}
