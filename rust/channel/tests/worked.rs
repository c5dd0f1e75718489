//! The paper's worked packets of the joiner and of what it reads, each of its refusals, and their order.

use channel::h264::feed;
use channel::joiner::{Closed, Joined, Joiner};
use channel::packet::{read, Packet};
use channel::{refuse, refuse_with, Refusal};

const SOURCE: u32 = 3;

/// "`7C850102`, `7C050304`, `7C4505`".
const START: [u8; 4] = [0x7C, 0x85, 1, 2];
const MIDDLE: [u8; 4] = [0x7C, 0x05, 3, 4];
const END: [u8; 3] = [0x7C, 0x45, 5];
const BOTH: [u8; 3] = [0x7C, 0xC5, 5];
const UNIT: [u8; 3] = [0x65, 1, 2];
const STAP_A: [u8; 6] = [0x78, 0, 3, 0x65, 1, 2];

/// "H = `80 60 0001 00000002 00000003`" with this number and payload.
fn packet(number: u16, payload: &[u8]) -> Vec<u8> {
    let [high, low] = number.to_be_bytes();
    [&[0x80, 0x60, high, low, 0, 0, 0, 2, 0, 0, 0, 3], payload].concat()
}

/// X is H with first byte 90.
fn extended(rest: &[u8]) -> Vec<u8> {
    let mut bytes = packet(1, rest);
    bytes[0] = 0x90;
    bytes
}

fn join(joiner: &mut Joiner, number: u16, payload: &[u8]) -> Result<Joined, Refusal> {
    joiner.join(&packet(number, payload), &mut [0; 64], 64)
}

fn accepted(first: u16, count: u16, out: &[u8]) -> Result<Joined, Refusal> {
    Ok(Joined::Accepted { first, count, out: out.to_vec() })
}

/// A payload with its forbidden bit set.
fn damaged(payload: &[u8]) -> Vec<u8> {
    [&[payload[0] | 0x80], &payload[1..]].concat()
}

/// A unit behind its start code.
fn handed(first: u8, rest: &[u8]) -> Vec<u8> {
    [&[0, 0, 0, 1, first], rest].concat()
}

/// A joiner that awaits 2 of packets 0 and 1: START with the bit, and MIDDLE without.
fn marked_run() -> Joiner {
    let mut joiner = Joiner::open(SOURCE, 0);
    join(&mut joiner, 0, &damaged(&START)).unwrap();
    join(&mut joiner, 1, &MIDDLE).unwrap();
    assert_eq!((joiner.gathered(), joiner.marked()), (4, true));
    joiner
}

#[test]
fn three_fragments_over_a_wrap_are_one_unit() {
    let mut joiner = Joiner::open(SOURCE, 65_535);
    assert_eq!(join(&mut joiner, 65_535, &START), accepted(65_535, 0, &[]));
    assert_eq!(join(&mut joiner, 0, &MIDDLE), accepted(0, 0, &[]));
    let unit = [0, 0, 0, 1, 0x65, 1, 2, 3, 4, 5];
    assert_eq!(join(&mut joiner, 1, &END), accepted(1, 0, &unit));
    assert_eq!((joiner.awaited, joiner.missed, joiner.run), (2, 0, None));
}

#[test]
fn a_jump_drops_the_run() {
    let mut joiner = Joiner::open(SOURCE, 65_535);
    assert_eq!(join(&mut joiner, 65_535, &START), accepted(65_535, 0, &[]));
    assert_eq!(join(&mut joiner, 1, &END), accepted(0, 1, &[]));
    assert_eq!(joiner.close(2), Ok(Closed { first: 2, count: 0 }));
    assert_eq!((joiner.missed, joiner.closed), (1, true));
}

#[test]
fn half_of_the_numbers_are_forward() {
    let mut joiner = Joiner::open(SOURCE, 40_000);
    assert_eq!(join(&mut joiner, 7_232, &UNIT), Ok(Joined::Late));
    assert_eq!((joiner.awaited, joiner.missed), (40_000, 0));
    let handed = [0, 0, 0, 1, 0x65, 1, 2];
    assert_eq!(join(&mut joiner, 7_231, &UNIT), accepted(40_000, 32_767, &handed));
    assert_eq!((joiner.awaited, joiner.missed), (7_232, 32_767));
}

#[test]
fn units_drop_the_run_and_a_start_replaces_it() {
    let mut joiner = Joiner::open(SOURCE, 0);
    join(&mut joiner, 0, &START).unwrap();
    join(&mut joiner, 1, &UNIT).unwrap();
    assert_eq!(join(&mut joiner, 2, &END), accepted(2, 0, &[]));
    join(&mut joiner, 3, &START).unwrap();
    join(&mut joiner, 4, &[0x7C, 0x85, 9]).unwrap();
    let mut gather = [7; 5];
    let end = joiner.join(&packet(5, &END), &mut gather, 7);
    assert_eq!(end, accepted(5, 0, &[0, 0, 0, 1, 0x65, 9, 5]));
    assert_eq!(gather, [9, 5, 7, 7, 7]);
}

// E3: "the rebuilt top bit is set if any fragment of the unit had it set."
#[test]
fn a_mark_on_any_fragment_marks_the_unit() {
    for marks in 0..8 {
        let mut joiner = Joiner::open(SOURCE, 0);
        let sent = |i: u16, payload: &[u8]| match marks >> i & 1 {
            0 => packet(i, payload),
            _ => packet(i, &damaged(payload)),
        };
        let mut gather = [0; 5];
        joiner.join(&sent(0, &START), &mut gather, 10).unwrap();
        assert_eq!(joiner.marked(), marks & 1 != 0);
        joiner.join(&sent(1, &MIDDLE), &mut gather, 10).unwrap();
        assert_eq!(joiner.marked(), marks & 3 != 0);
        let first = if marks == 0 { 0x65 } else { 0xE5 };
        let unit = handed(first, &[1, 2, 3, 4, 5]);
        assert_eq!(joiner.join(&sent(2, &END), &mut gather, 10), accepted(2, 0, &unit));
        assert_eq!((joiner.run, gather), (None, [1, 2, 3, 4, 5]));
    }
}

#[test]
fn the_last_fragment_gives_nri_and_type() {
    let mut joiner = Joiner::open(SOURCE, 0);
    join(&mut joiner, 0, &[0xFC, 0x85, 1]).unwrap();
    assert_eq!(join(&mut joiner, 1, &[0x3C, 0x41, 2]), accepted(1, 0, &handed(0xA1, &[1, 2])));
    join(&mut joiner, 2, &[0x5C, 0x85, 1]).unwrap();
    assert_eq!(join(&mut joiner, 3, &[0x9C, 0x47, 2]), accepted(3, 0, &handed(0x87, &[1, 2])));
}

#[test]
fn the_next_unit_has_marks_of_its_own() {
    let mut joiner = marked_run();
    assert_eq!(join(&mut joiner, 2, &END), accepted(2, 0, &handed(0xE5, &[1, 2, 3, 4, 5])));
    join(&mut joiner, 3, &START).unwrap();
    assert_eq!((joiner.gathered(), joiner.marked()), (2, false));
    assert_eq!(join(&mut joiner, 4, &END), accepted(4, 0, &handed(0x65, &[1, 2, 5])));
}

#[test]
fn a_jump_drops_the_mark() {
    let mut joiner = marked_run();
    assert_eq!(join(&mut joiner, 3, &START), accepted(2, 1, &[]));
    assert_eq!((joiner.gathered(), joiner.marked()), (2, false));
    assert_eq!(join(&mut joiner, 4, &END), accepted(4, 0, &handed(0x65, &[1, 2, 5])));
    // and where what comes next is no start, there is no run to mark
    for payload in [damaged(&MIDDLE), damaged(&END), MIDDLE.to_vec()] {
        let mut joiner = marked_run();
        assert_eq!(join(&mut joiner, 3, &payload), accepted(2, 1, &[]));
        assert_eq!((joiner.run.clone(), joiner.marked()), (None, false));
        assert_eq!(join(&mut joiner, 4, &END), accepted(4, 0, &[]));
    }
}

#[test]
fn a_start_begins_the_mark_anew() {
    let mut joiner = marked_run();
    join(&mut joiner, 2, &[0x7C, 0x85, 9]).unwrap();
    assert_eq!((joiner.gathered(), joiner.marked()), (1, false));
    assert_eq!(join(&mut joiner, 3, &END), accepted(3, 0, &handed(0x65, &[9, 5])));
    join(&mut joiner, 4, &START).unwrap();
    join(&mut joiner, 5, &damaged(&START)).unwrap();
    assert_eq!((joiner.gathered(), joiner.marked()), (2, true));
    assert_eq!(join(&mut joiner, 6, &END), accepted(6, 0, &handed(0xE5, &[1, 2, 5])));
}

#[test]
fn units_and_closing_drop_the_mark() {
    for payload in [&UNIT[..], &STAP_A] {
        let mut joiner = marked_run();
        assert_eq!(join(&mut joiner, 2, payload), accepted(2, 0, &handed(0x65, &[1, 2])));
        assert_eq!((joiner.run.clone(), joiner.marked()), (None, false));
        join(&mut joiner, 3, &START).unwrap();
        assert_eq!(join(&mut joiner, 4, &END), accepted(4, 0, &handed(0x65, &[1, 2, 5])));
    }
    let mut joiner = marked_run();
    joiner.close(2).unwrap();
    assert_eq!((joiner.run.clone(), joiner.marked()), (None, false));
}

#[test]
fn units_keep_their_own_first_byte() {
    let mut joiner = Joiner::open(SOURCE, 0);
    let unit = handed(0xE5, &[1, 2]);
    assert_eq!(join(&mut joiner, 0, &damaged(&UNIT)), accepted(0, 0, &unit));
    assert_eq!(join(&mut joiner, 1, &damaged(&STAP_A)), accepted(1, 0, &handed(0x65, &[1, 2])));
    assert_eq!(join(&mut joiner, 2, &[0x78, 0, 3, 0xE5, 1, 2]), accepted(2, 0, &unit));
}

// "A refusal .. changes no buffer and no state"; nor does Late.
#[test]
fn a_refused_or_late_packet_leaves_the_mark() {
    let unit = |first| handed(first, &[1, 2, 3, 4, 5]);
    let mut clean = Joiner::open(SOURCE, 0);
    join(&mut clean, 0, &START).unwrap();
    join(&mut clean, 1, &MIDDLE).unwrap();
    for (mut joiner, first, marked) in [(marked_run(), 0xE5, true), (clean, 0x65, false)] {
        let before = joiner.run.clone();
        assert_eq!(join(&mut joiner, 2, &BOTH), refuse(21));
        assert_eq!(join(&mut joiner, 2, &damaged(&BOTH)), refuse(21));
        assert_eq!(join(&mut joiner, 2, &[0xFA, 1, 2]), refuse_with(19, &[26]));
        assert_eq!(joiner.join(&packet(2, &damaged(&END)), &mut [0; 4], 64), refuse(6));
        assert_eq!(joiner.join(&packet(2, &damaged(&END)), &mut [0; 5], 9), refuse(5));
        assert_eq!(join(&mut joiner, 0, &damaged(&START)), Ok(Joined::Late));
        assert_eq!(join(&mut joiner, 1, &MIDDLE), Ok(Joined::Late));
        assert_eq!(joiner.close(1), refuse(23));
        assert_eq!((joiner.run.clone(), joiner.marked()), (before, marked));
        let end = joiner.join(&packet(2, &END), &mut [1, 2, 3, 4, 0], 10);
        assert_eq!(end, accepted(2, 0, &unit(first)));
    }
}

#[test]
fn each_refusal_leaves_the_joiner_as_it_was() {
    let mut joiner = Joiner::open(SOURCE, 0);
    join(&mut joiner, 0, &START).unwrap();
    joiner.missed = 4_294_967_295;
    let other = [&packet(1, &END)[..8], &[0, 0, 0, 4], &END].concat();
    assert_eq!(joiner.join(&other, &mut [0; 64], 64), refuse(20));
    assert_eq!(join(&mut joiner, 1, &BOTH), refuse(21));
    assert_eq!(join(&mut joiner, 2, &END), refuse(24));
    assert_eq!(join(&mut joiner, 1, &[0x65, 1]), refuse(4));
    assert_eq!(join(&mut joiner, 1, &[0x7A, 1, 2]), refuse_with(19, &[26]));
    assert_eq!(joiner.join(&packet(1, &END), &mut [0; 2], 64), refuse(6));
    assert_eq!(joiner.join(&packet(1, &END), &mut [0; 3], 7), refuse(5));
    assert_eq!(joiner.join(&packet(1, &END), &mut [0; 1], 64), refuse(8));
    assert_eq!(joiner.close(32_769), refuse(23));
    assert_eq!(joiner.close(2), refuse(24));
    let unit = [0, 0, 0, 1, 0x65, 1, 2, 5];
    assert_eq!(joiner.join(&packet(1, &END), &mut [0; 3], 8), accepted(1, 0, &unit));
    assert_eq!(joiner.close(2), Ok(Closed { first: 2, count: 0 }));
    assert_eq!(join(&mut joiner, 2, &END), refuse(22));
    assert_eq!(joiner.close(2), refuse(22));
}

#[test]
fn the_order_of_the_checks() {
    let mut joiner = Joiner::open(SOURCE, 0);
    join(&mut joiner, 0, &START).unwrap();
    joiner.missed = 4_294_967_295;
    // 8 before packet reading, that before 20, 20 before Late, Late before 24, 24 before the H.264 checks, 6 before 5
    assert_eq!(joiner.join(&[0x80], &mut [0; 1], 64), refuse(8));
    assert_eq!(joiner.join(&[0x80], &mut [0; 2], 64), refuse(1));
    let mut other = packet(0, &END);
    other[11] = 9;
    assert_eq!(joiner.join(&other, &mut [0; 64], 64), refuse(20));
    assert_eq!(join(&mut joiner, 40_000, &BOTH), Ok(Joined::Late));
    assert_eq!(join(&mut joiner, 2, &BOTH), refuse(24));
    assert_eq!(joiner.join(&packet(1, &END), &mut [0; 2], 0), refuse(6));
    // 23 before 24
    assert_eq!(joiner.close(40_000), refuse(23));
    joiner.closed = true;
    // 22 before 8, and before 23
    assert_eq!(joiner.join(&[], &mut [], 0), refuse(22));
    assert_eq!(joiner.close(40_000), refuse(22));
}

#[test]
fn payloads() {
    let units = |payload: &[u8]| feed(None, 2, payload).map(|fate| fate.units);
    assert_eq!(units(&[0x18, 0, 1, 0x41, 5]), refuse(18));
    assert_eq!(units(&[0x18, 0, 2, 0x41]), refuse_with(17, &[2, 1]));
    let pair = [0x78, 0, 2, 0x67, 0xAA, 0, 2, 0x68, 0xBB];
    assert_eq!(units(&pair), Ok(vec![vec![0x67, 0xAA], vec![0x68, 0xBB]]));
    assert_eq!(units(&[9, 0x10]), Ok(vec![vec![9, 0x10]]));
    assert_eq!(units(&[0x0C, 0x80]), refuse(4));
}

#[test]
fn packets() {
    let payload = |bytes: &[u8]| read(bytes).map(|packet| packet.payload);
    let h = packet(1, &[]);
    assert_eq!(read(&h), Ok(Packet { source: 3, number: 1, time: 2, payload: vec![] }));
    assert_eq!(payload(&h[..11]), refuse(1));
    let one = |rest: &[u8]| payload(&extended(&[&[0xBE, 0xDE, 0, 1], rest].concat()));
    assert_eq!(one(&[0x10, 0xAA, 0, 0]), Ok(vec![]));
    assert_eq!(one(&[0xF0, 0xAA, 0xBB, 0xCC, 0xDD]), Ok(vec![0xAA, 0xBB, 0xCC, 0xDD]));
    assert_eq!(one(&[0, 0, 0, 0x12, 1, 2, 3, 4]), Ok(vec![4]));
    assert_eq!(one(&[0, 0, 0, 0x12, 1, 2]), refuse(3));
    assert_eq!(one(&[0, 0, 0]), refuse(2));
    let many = [&[0x10, 0, 0, 17][..], &[[1, 0]; 34].concat()].concat();
    assert_eq!(payload(&extended(&many)), refuse(7));
    let mut padded = packet(1, &[0]);
    padded[0] = 0xA0;
    assert_eq!(payload(&padded), Ok(vec![0]));
    padded[12] = 2;
    assert_eq!(payload(&padded), refuse(4));
    assert_eq!(payload(&padded[..12]), refuse(4));
    assert_eq!(payload(&vec![0x80; 65_536]), refuse(8));
}
