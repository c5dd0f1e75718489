//! E4: "A run belongs to one moment": which fragments of which times become a unit, and what is as it was beside refusal 25.

use channel::joiner::{distance, Joined, Joiner};
use channel::worked::{packet, FRAGMENTS, UNIT};
use channel::{refuse, refuse_with, Refusal};

const START: &[u8] = FRAGMENTS[0];
const MIDDLE: &[u8] = FRAGMENTS[1];
const END: &[u8] = FRAGMENTS[2];
const BOTH: &[u8] = &[0x7C, 0xC5, 5];
const STAP_A: &[u8] = &[0x78, 0, 3, 0x65, 1, 2];
const WHOLE: &[u8] = &[0, 0, 0, 1, 0x65, 1, 2, 3, 4, 5];

/// Two times each, the second of another moment however close.
const TIMES: [[u32; 2]; 7] = [
    [2, 9],
    [9, 2],
    [0, 1],
    [0, u32::MAX],
    [u32::MAX, 0],
    [0x8000_0000, 0],
    [0x0102_0304, 0x0403_0201],
];

fn accepted(first: u16, count: u16, out: &[u8]) -> Result<Joined, Refusal> {
    Ok(Joined::Accepted { first, count, out: out.to_vec() })
}

/// A joiner and its gather buffer.
#[derive(Clone, Debug, PartialEq)]
struct Host {
    joiner: Joiner,
    gather: Vec<u8>,
}

impl Host {
    fn new() -> Self {
        Host { joiner: Joiner::open(3, 0), gather: vec![7; 64] }
    }

    /// That awaits 2 of packets 0 and 1, START and MIDDLE of this time.
    fn with_a_run(time: u32) -> Self {
        let mut host = Host::new();
        assert_eq!(host.join(0, time, START), accepted(0, 0, &[]));
        assert_eq!(host.join(1, time, MIDDLE), accepted(1, 0, &[]));
        assert_eq!((host.joiner.gathered(), host.joiner.time()), (4, time));
        host
    }

    fn join(&mut self, number: u16, time: u32, payload: &[u8]) -> Result<Joined, Refusal> {
        self.join_in(64, 64, number, time, payload)
    }

    /// With so many places of the gather buffer and of the output.
    fn join_in(
        &mut self,
        gather: usize,
        out: usize,
        number: u16,
        time: u32,
        payload: &[u8],
    ) -> Result<Joined, Refusal> {
        self.joiner.join(&packet(number, time, payload), &mut self.gather[..gather], out)
    }
}

/// Start, middles and end, each of one of two times by its bit in `of_second`; before fragment `gap`, if there is one, a number is
/// missing. The first fragment of another time than the start's is refused where no gap is before it, so that its number is missing too.
fn fragments_of_two_times(middles: usize, times: [u32; 2], of_second: usize, gap: usize) {
    let payloads = [vec![START], vec![MIDDLE; middles], vec![END]].concat();
    let time = |i: usize| times[of_second >> i & 1];
    let last = payloads.len() - 1;
    let refused = (1..gap.min(last + 1)).find(|i| time(*i) != time(0));
    let mut host = Host::new();
    for (i, payload) in payloads.iter().enumerate() {
        let number = i + usize::from(i >= gap);
        let missing = usize::from(i == gap) + usize::from(i > 0 && refused == Some(i - 1));
        let whole = i == last && gap > last && refused.is_none();
        let unit = [&[0, 0, 0, 1, 0x65, 1, 2][..], &[3, 4].repeat(middles), &[5]].concat();
        let said = match refused == Some(i) {
            true => refuse(25),
            false => {
                let out = if whole { &unit[..] } else { &[] };
                accepted((number - missing) as u16, missing as u16, out)
            }
        };
        assert_eq!(host.join(number as u16, time(i), payload), said);
    }
    let run = host.joiner.run.map(|run| run.time);
    assert_eq!(run, (refused == Some(last)).then_some(time(0)));
}

#[test]
fn every_order_of_two_times() {
    for times in TIMES {
        for middles in [0, 1, 2] {
            let fragments = middles + 2;
            for of_second in 0..1 << fragments {
                for gap in 1..=fragments {
                    fragments_of_two_times(middles, times, of_second, gap);
                }
            }
        }
    }
}

#[test]
fn every_bit_of_the_time_counts() {
    for bit in 0..32 {
        let mut host = Host::with_a_run(0x5555_5555);
        assert_eq!(host.join(2, 0x5555_5555 ^ (1 << bit), END), refuse(25));
        assert_eq!(host.join(2, 0x5555_5555, END), accepted(2, 0, WHOLE));
    }
}

// "present exactly while a run is open"; 0 is a time as any other.
#[test]
fn the_time_goes_with_the_run() {
    for [time, other] in TIMES {
        let mut host = Host::with_a_run(time);
        assert_eq!(host.join(2, time, END), accepted(2, 0, WHOLE));
        assert_eq!((host.joiner.run.clone(), host.joiner.time()), (None, 0));
        for (payload, out) in [(UNIT, &WHOLE[..7]), (STAP_A, &WHOLE[..7])] {
            let mut host = Host::with_a_run(time);
            assert_eq!(host.join(2, other, payload), accepted(2, 0, out));
            assert_eq!((host.joiner.run.clone(), host.joiner.time()), (None, 0));
        }
        let mut host = Host::with_a_run(time);
        host.joiner.close(2).unwrap();
        assert_eq!((host.joiner.run.clone(), host.joiner.time()), (None, 0));
    }
}

#[test]
fn a_start_of_another_time_replaces_the_run() {
    for [time, other] in TIMES {
        let mut host = Host::with_a_run(time);
        assert_eq!(host.join(2, other, &[0x7C, 0x85, 9]), accepted(2, 0, &[]));
        assert_eq!((host.joiner.gathered(), host.joiner.time()), (1, other));
        assert_eq!(host.join(3, time, END), refuse(25));
        assert_eq!(host.join(3, other, END), accepted(3, 0, &[0, 0, 0, 1, 0x65, 9, 5]));
    }
}

// "A continuation without a run yields nothing", of any time.
#[test]
fn without_a_run_there_is_no_other_time() {
    for [time, other] in TIMES {
        for payload in [MIDDLE, END] {
            let mut host = Host::new();
            assert_eq!(host.join(0, time, payload), accepted(0, 0, &[]));
            assert_eq!(host.join(1, other, payload), accepted(1, 0, &[]));
            let mut host = Host::with_a_run(time);
            assert_eq!(host.join(3, other, payload), accepted(2, 1, &[]));
            assert_eq!((host.joiner.run.clone(), host.joiner.time()), (None, 0));
            assert_eq!(host.join(4, time, payload), accepted(4, 0, &[]));
        }
    }
}

// "is refused and changes nothing", the awaited number included.
#[test]
fn all_is_as_it_was_beside_25() {
    for [time, other] in TIMES {
        let mut host = Host::with_a_run(time);
        let before = host.clone();
        for payload in [MIDDLE, END, &[0xFC, 0x05, 3], MIDDLE] {
            assert_eq!(host.join(2, other, payload), refuse(25));
            assert_eq!(host, before);
        }
        assert_eq!(host.join(2, time, END), accepted(2, 0, WHOLE));
        assert_eq!(host.gather[..6], [1, 2, 3, 4, 5, 7]);
    }
}

#[test]
fn a_jump_behind_25_drops_the_run() {
    let mut host = Host::with_a_run(2);
    assert_eq!(host.join(2, 9, MIDDLE), refuse(25));
    assert_eq!(host.join(3, 9, END), accepted(2, 1, &[]));
    assert_eq!((host.joiner.run.clone(), host.joiner.missed), (None, 1));
    assert_eq!(host.join(4, 9, START), accepted(4, 0, &[]));
    assert_eq!(host.join(6, 2, START), accepted(5, 1, &[]));
    assert_eq!((host.joiner.gathered(), host.joiner.time()), (2, 2));
    assert_eq!(host.join(7, 9, END), refuse(25));
    assert_eq!(host.join(7, 2, END), accepted(7, 0, &[0, 0, 0, 1, 0x65, 1, 2, 5]));
}

// "A refusal .. changes no buffer and no state"; nor does Late.
#[test]
fn a_refused_or_late_packet_leaves_the_time() {
    let mut host = Host::with_a_run(2);
    let before = host.clone();
    assert_eq!(host.join(2, 9, BOTH), refuse(21));
    assert_eq!(host.join(2, 9, &[0x7A, 1, 2]), refuse_with(19, &[26]));
    assert_eq!(host.join(2, 9, &STAP_A[..5]), refuse_with(17, &[3, 2]));
    assert_eq!(host.join_in(64, 6, 2, 9, UNIT), refuse(5));
    assert_eq!(host.join_in(4, 64, 2, 9, &[0x7C, 0x85, 1, 2, 3, 4, 5]), refuse(6));
    assert_eq!(host.join(0, 9, START), Ok(Joined::Late));
    assert_eq!(host.join(1, 9, END), Ok(Joined::Late));
    assert_eq!(host.joiner.close(1), refuse(23));
    let mut other = packet(2, 9, END);
    other[11] = 4;
    assert_eq!(host.joiner.join(&other, &mut host.gather, 64), refuse(20));
    assert_eq!(host, before);
    assert_eq!(host.join(2, 2, END), accepted(2, 0, WHOLE));
}

// 22, 8, reading, 20, Late and 24 before 25, which a distance of 0 asks for; 4, 19 and 21 before it, 6 and 5 behind it.
#[test]
fn the_place_of_25() {
    let mut host = Host::with_a_run(2);
    host.joiner.missed = 4_294_967_295;
    assert_eq!(host.join_in(3, 0, 2, 9, END), refuse(8));
    assert_eq!(host.join(3, 9, END), refuse(24));
    assert_eq!(host.join(2, 9, &END[..2]), refuse(4));
    assert_eq!(host.join(2, 9, BOTH), refuse(21));
    for (gather, out, number) in [(4, 0, 6), (4, 64, 6), (5, 9, 5), (5, 0, 5)] {
        assert_eq!(host.join_in(gather, out, 2, 2, END), refuse(number));
        assert_eq!(host.join_in(gather, out, 2, 9, END), refuse(25));
    }
    assert_eq!(host.join_in(4, 0, 2, 9, MIDDLE), refuse(25));
    let mut padded = packet(2, 9, END);
    padded[0] = 0xA0;
    assert_eq!(host.joiner.join(&padded, &mut host.gather, 64), refuse(4));
    assert_eq!(distance(2, host.joiner.awaited), 0);
    host.joiner.closed = true;
    assert_eq!(host.join(2, 9, END), refuse(22));
}
