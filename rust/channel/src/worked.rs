//! The paper's worked cases of the joiner, and its fragments with a mark and with another time, as runs: the list begins with them.

use crate::runs::{Call, Run};
use crate::sender::{marked, Stamp};

/// "`7C850102`, `7C050304`, `7C4505`".
pub const FRAGMENTS: [&[u8]; 3] = [&[0x7C, 0x85, 1, 2], &[0x7C, 0x05, 3, 4], &[0x7C, 0x45, 5]];
pub const UNIT: &[u8] = &[0x65, 1, 2];

/// "H = `80 60 0001 00000002 00000003`" with this number, time and payload.
pub fn packet(number: u16, time: u32, payload: &[u8]) -> Vec<u8> {
    let (number, time) = (number.to_be_bytes(), time.to_be_bytes());
    [&[0x80, 0x60], &number[..], &time, &[0, 0, 0, 3], payload].concat()
}

fn join_at(time: u32, number: u16, payload: &[u8]) -> Call {
    Call::Join(packet(number, time, payload))
}

fn join(number: u16, payload: &[u8]) -> Call {
    join_at(2, number, payload)
}

fn from(number: u16, calls: Vec<Call>) -> Run {
    Run { first: Stamp { source: 3, number, time: 2 }, missed: 0, gather: 16, out: 16, calls }
}

pub fn runs() -> Vec<Run> {
    let [start, middle, end] = FRAGMENTS;
    let damaged = marked(start.to_vec());
    vec![
        // "Joiner from 65535, the three FU-A above as 65535, 0, 1: one unit."
        from(65_535, vec![join(65_535, start), join(0, middle), join(1, end), Call::Close(2)]),
        // "65535, 1, close 2: none, missed 1."
        from(65_535, vec![join(65_535, start), join(1, end), Call::Close(2)]),
        // "d 32,767 is forward, 32,768 Late."
        from(0, vec![join(32_768, UNIT), join(32_767, UNIT)]),
        // E3: "the rebuilt top bit is set if any fragment of the unit had it set"; the next unit has fragments of its own
        from(
            0,
            vec![join(0, &damaged), join(1, end), join(2, start), join(3, end), Call::Close(4)],
        ),
        // E4: "A continuation that follows without a gap but carries another timestamp is refused and changes nothing."
        from(0, another_time()),
        from(0, every_bit()),
    ]
}

/// Fragments of two encoders; the other's start replaces the run.
fn another_time() -> Vec<Call> {
    let [start, middle, end] = FRAGMENTS;
    vec![
        join(0, start),
        join_at(9, 1, middle),
        join_at(9, 1, end),
        join(1, middle),
        join_at(9, 2, start),
        join(3, end),
        join_at(9, 3, end),
        Call::Close(4),
    ]
}

/// Last fragments whose times differ from their run's in one bit each, and the one that is its.
fn every_bit() -> Vec<Call> {
    let [start, _, end] = FRAGMENTS;
    let others = (0..32).map(|bit| join_at(2 ^ (1 << bit), 1, end));
    [join(0, start)].into_iter().chain(others).chain([join(1, end), Call::Close(2)]).collect()
}
