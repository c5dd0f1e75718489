//! What became of units and pairs, told from the Rust's packets: each outcome by a frame of its own,
//! and the counts as the paper's words have them.

use bytes::Bytes;
use oracle::h264::H264Payloader;
use oracle::outcomes::{send, Drops, Outcome, Pair, Unit};

const SPS: &[u8] = &[0x67, 0xAA];
const PPS: &[u8] = &[0x68, 0xBB];
const NONE: &[u8] = &[];

/// Each unit behind a start code.
fn frame(units: &[&[u8]]) -> Bytes {
    units.iter().flat_map(|unit| [&[0, 0, 1], *unit].concat()).collect()
}

fn sender([sps, pps]: [&'static [u8]; 2]) -> H264Payloader {
    H264Payloader::holding(Bytes::from_static(sps), Bytes::from_static(pps))
}

/// What becomes of a unit that is sent where these sets are saved.
fn became(mtu: usize, sets: [&'static [u8]; 2], unit: &[u8]) -> (Unit, Pair) {
    let sent = send(&mut sender(sets), mtu, &frame(&[unit])).expect("packets");
    let [Outcome { unit, pair }] = sent.outcomes[..] else { panic!("one unit") };
    (unit, pair)
}

#[test]
fn units() {
    assert_eq!(became(1, [SPS, PPS], &[]), (Unit::Empty, Pair::NotDue));
    assert_eq!(became(1, [SPS, PPS], &[0x09, 0x10]), (Unit::DroppedByType(9), Pair::NotDue));
    assert_eq!(became(1, [SPS, PPS], &[0x0C, 0x80]), (Unit::DroppedByType(12), Pair::NotDue));
    assert_eq!(became(1, [SPS, PPS], &[0x27, 0x01]), (Unit::Saved(7), Pair::NotDue));
    assert_eq!(became(1, [SPS, PPS], &[0x28, 0x01]), (Unit::Saved(8), Pair::NotDue));
    assert_eq!(became(1, [NONE, NONE], &[0x65]), (Unit::Alone, Pair::NotDue));
    for mtu in [1, 2] {
        assert_eq!(became(mtu, [NONE, NONE], &[0x65, 1, 2]), (Unit::DroppedForMtu, Pair::NotDue));
    }
    assert_eq!(became(3, [NONE, NONE], &[0x65, 1, 2]), (Unit::Alone, Pair::NotDue));
    assert_eq!(became(3, [NONE, NONE], &[0x65, 1, 2, 3]), (Unit::InFragments, Pair::NotDue));
}

#[test]
fn pairs() {
    assert_eq!(became(9, [SPS, NONE], &[0x65]), (Unit::Alone, Pair::NotDue));
    assert_eq!(became(9, [NONE, PPS], &[0x65]), (Unit::Alone, Pair::NotDue));
    assert_eq!(became(9, [SPS, PPS], &[0x65]), (Unit::Alone, Pair::Sent));
    assert_eq!(became(8, [SPS, PPS], &[0x65]), (Unit::Alone, Pair::DroppedForMtu));
    assert_eq!(became(9, [SPS, PPS], &[0x65; 10]), (Unit::InFragments, Pair::Sent));
    assert_eq!(became(8, [SPS, PPS], &[0x65; 10]), (Unit::InFragments, Pair::DroppedForMtu));
    assert_eq!(became(2, [SPS, PPS], &[0x65; 3]), (Unit::DroppedForMtu, Pair::DroppedForMtu));
    // A unit of the pair's own packet.
    let stap_a = [0x78, 0, 2, 0x67, 0xAA, 0, 2, 0x68, 0xBB];
    assert_eq!(became(9, [SPS, PPS], &stap_a), (Unit::Alone, Pair::Sent));
    assert_eq!(became(8, [SPS, PPS], &stap_a), (Unit::InFragments, Pair::DroppedForMtu));
}

#[test]
fn nothing_is_asked() {
    for (mtu, frame) in [(0, frame(&[&[0x65, 1, 2]])), (9, Bytes::new())] {
        let sent = send(&mut sender([SPS, PPS]), mtu, &frame).expect("packets");
        assert!(sent.outcomes.is_empty() && sent.packets.is_empty());
        assert_eq!(sent.drops(), Drops::default());
    }
}

// "Empty units and types 9, 12 are dropped; 7, 8 are saved. Any other unit, with both saved, is
// preceded by a STAP-A (0x78) if that fits the mtu; the pair is forgotten either way. A unit that
// fits goes alone, else as FU-A with at most mtu - 2 bytes each; under mtu 3 it is dropped."
fn by_the_paper(mtu: usize, [sps, pps]: [&[u8]; 2], units: &[&[u8]]) -> Drops {
    let (mut sps, mut pps, mut drops) = (sps.len(), pps.len(), Drops::default());
    for unit in units {
        match unit.first().map(|first| first & 31) {
            None | Some(9 | 12) => {}
            Some(7) => sps = unit.len(),
            Some(8) => pps = unit.len(),
            Some(_) => {
                if sps > 0 && pps > 0 {
                    drops.pairs += usize::from(mtu < 5 + sps + pps);
                    (sps, pps) = (0, 0);
                }
                drops.units += usize::from(mtu < unit.len() && mtu < 3);
            }
        }
    }
    drops
}

#[test]
fn counts() {
    let units: [&[u8]; 8] =
        [&[], &[9, 16], &[0x67, 1, 1], &[0x68], &[0x65], &[0x41, 2], &[0x01, 2, 3], &[0x7C; 14]];
    for choice in 0..units.len().pow(4) {
        let chosen = [0, 3, 6, 9].map(|shift| units[choice >> shift & 7]);
        for sets in [[NONE, NONE], [SPS, NONE], [SPS, PPS]] {
            for mtu in 1..=10 {
                let sent = send(&mut sender(sets), mtu, &frame(&chosen)).expect("packets");
                assert_eq!(sent.drops(), by_the_paper(mtu, sets, &chosen), "{mtu} {chosen:?}");
            }
        }
    }
}
