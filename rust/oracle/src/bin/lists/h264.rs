//! Questions about H.264 payloads.

use oracle::text::hex;

use crate::cases;
use crate::list::List;
use crate::random::{strings, Random};
use crate::{search, sets, vectors};

pub fn rows(list: &mut List) {
    cases::h264(list);
    published(list);
    start_codes(list);
    partitions(list);
    short_frames(list);
    units_and_mtus(list);
    zero_runs(list);
    pairs(list);
    sending_limits(list);
    short_packets(list);
    aggregates(list);
    fragments(list);
    long_units(list);
    reading_limits(list);
    shows(list);
    drops(list);
    search::rows(list);
    sets::rows(list);
    list.must_ask_all();
}

fn published(list: &mut List) {
    for vector in vectors::each(vectors::H264) {
        for mtu in [1, 2, 5, 1_500] {
            list.ask(format!("h264.send {mtu} - - {vector}"));
        }
        for avc in [0, 1] {
            list.ask(format!("h264.read {avc} - {vector}"));
        }
        list.ask(format!("h264.head {vector}"));
        list.ask(format!("h264.next {vector} 0"));
    }
}

/// "A start code is two or more zeros and a 1."
fn start_codes(list: &mut List) {
    for len in 0..=6 {
        for frame in strings(&[0, 1, 2], len) {
            let shown = hex(&frame);
            list.ask(format!("h264.next {shown} 0"));
            for start in 1..=if len <= 4 { len + 1 } else { 0 } {
                list.ask(format!("h264.next {shown} {start}"));
            }
        }
    }
    for zeros in [1, 2, 3, 200, 1_000] {
        let frame = [&[0x65][..], &vec![0; zeros], &[1, 0x41]].concat();
        for start in [0, zeros - 1, zeros] {
            list.ask(format!("h264.next {} {start}", hex(&frame)));
        }
    }
    for start in [1 << 24, 1 << 40, usize::MAX] {
        list.ask(format!("h264.next 000001 {start}"));
    }
}

fn partitions(list: &mut List) {
    for first in 0..=255u8 {
        list.ask(format!("h264.head {first:02x}"));
        for second in [0x05, 0x80, 0xC5, 0x7F] {
            if second == 0x80 || first & 31 >= 24 {
                list.ask(format!("h264.head {first:02x}{second:02x}"));
            }
        }
    }
    list.ask("h264.head -");
    list.ask("h264.head 7c8501");
    list.ask("h264.tail 0");
    list.ask("h264.tail 1");
}

/// Asks a sender in which these sets wait.
pub fn send(list: &mut List, mtu: usize, sets: &str, frame: &[u8]) -> String {
    list.ask_sender(format!("h264.send {mtu} {sets} {}", hex(frame)))
}

fn short_frames(list: &mut List) {
    for len in 0..=5 {
        for frame in strings(&[0, 1, 0x65], len) {
            let mtu = list.random.pick(&[1, 2, 3, 4]);
            list.ask(format!("h264.send {mtu} - - {}", hex(&frame)));
        }
    }
}

/// Every type, and every length around every small mtu.
fn units_and_mtus(list: &mut List) {
    for first in 0..=255u8 {
        for (mtu, len) in [(4, 4), (4, 7)] {
            let frame = [&[0, 0, 1, first][..], &vec![0x11; len - 1]].concat();
            list.ask(format!("h264.send {mtu} - - {}", hex(&frame)));
        }
    }
    for mtu in 0..9 {
        for len in 1..14 {
            let unit: Vec<u8> = (0x65..0x65 + len).collect();
            send(list, mtu, "- -", &[&[0, 0, 1][..], &unit].concat());
        }
    }
    for len in [99, 100, 101, 102, 199, 200, 297, 298, 299] {
        send(list, 101, "- -", &vec![0x41; len]);
    }
}

/// Zeros before, between and behind units, a start code at the frame's very end, and bytes before
/// the first one.
fn zero_runs(list: &mut List) {
    for zeros in (0..7).chain([200]) {
        let run = &vec![0; zeros][..];
        let frames = [
            [run, &[1, 0x65, 0x11, 0x12]].concat(),
            [&[0, 0, 1, 0x65, 0x11], run, &[1, 0x41, 0x22]].concat(),
            [&[0, 0, 1, 0x65, 0x11], run].concat(),
            [&[0, 0, 1, 0x65, 0x11], run, &[1]].concat(),
            [&[0x65, 0x11], run, &[2, 0, 0, 1, 0x41]].concat(),
            [&[0, 0, 1], run, &[1, 0x65]].concat(),
            [&[0, 0, 1], run].concat(),
        ];
        for frame in frames {
            send(list, 3, "- -", &frame);
            send(list, 100, "- -", &frame);
        }
    }
}

/// "Any other unit, with both saved, is preceded by a STAP-A (0x78) if that fits the mtu; the pair
/// is forgotten either way."
fn pairs(list: &mut List) {
    let units: [&[u8]; 7] =
        [&[0x65, 1, 2], &[0x65], &[0x09, 0x10], &[0x0C, 0x80], &[], &[0x67, 9], &[0x68, 9]];
    let pair = [0, 0, 1, 0x67, 0xEE, 0, 0, 1, 0x68, 0xDD, 0, 0, 1, 0x65, 1, 2];
    for sets in ["- -", "67aa -", "- 68bb", "67aa 68bb", "e7aabbcc 0801", "0701 28"] {
        for mtu in [0, 1, 2, 3, 7, 8, 9, 10, 11, 12] {
            for unit in units {
                send(list, mtu, sets, unit);
                send(list, mtu, sets, &[&[0, 0, 1], unit, &[0, 0, 1, 0x41, 7, 7]].concat());
            }
            send(list, mtu, sets, &pair);
            send(list, mtu, sets, &[0, 0, 1, 0x68, 0xDD, 0, 0, 1, 0x67, 0xEE]);
        }
    }
}

fn set(first: u8, len: usize) -> Vec<u8> {
    [&[first][..], &vec![0x5A; len - 1]].concat()
}

/// 8 for the mtu and the saved sets; 7 for a set to be saved, before 5.
fn sending_limits(list: &mut List) {
    for mtu in [65_534, 65_535, 65_536, 1usize << 40] {
        list.ask(format!("h264.send {mtu} - - 0000016501"));
    }
    for len in [1_023, 1_024, 1_025] {
        list.ask(format!("h264.send 0 {} - 65", hex(&set(0x67, len))));
        list.ask(format!("h264.send 9 - {} 65", hex(&set(0x68, len))));
        for unit in [0x67, 0xE7, 0x68, 0x28, 0x65].map(|first| hex(&set(first, len))) {
            list.ask(format!("h264.send 900 - - {unit}"));
            list.ask(format!("h264.send 0 - - {unit}"));
        }
    }
    let pps = hex(&set(0x68, 1_024));
    list.ask(format!("h264.send 1029 67 {pps} 65"));
    list.ask(format!("h264.send 1030 67 {pps} 65"));
    list.ask(format!("h264.send 2052 {} {pps} 65", hex(&set(0x67, 1_024))));
    long_sets(list);
}

/// A long set at each place in a frame, replaced by a later one, or before the first start code.
fn long_sets(list: &mut List) {
    for len in [1_024, 1_025] {
        let sps = &set(0x67, len)[..];
        let replaced = hex(&[&[0, 0, 1], sps, &[0, 0, 0, 1, 0x67, 1, 0, 0, 1, 0x65]].concat());
        list.ask(format!("h264.send 9 - - {replaced}"));
        list.ask(format!("h264.send 9 - - {replaced} 0 0"));
        list.ask(format!("h264.send 9 - - {}", hex(&[sps, &[0, 0, 1, 0x65]].concat())));
    }
    for place in 0..3 {
        for (first, len) in [(0x27, 1_024), (0x27, 1_025), (0x68, 1_025)] {
            let mut units = [vec![0x65], vec![0x68, 1], vec![0x41, 1, 2]];
            units[place] = set(first, len);
            let frame = units.map(|unit| [&[0, 0, 1], &unit[..]].concat()).concat();
            for rooms in ["", " 0 0", " 8 8"] {
                list.ask(format!("h264.send 5 67aa - {}{rooms}", hex(&frame)));
            }
        }
    }
}

/// Every first byte with too few bytes, and with enough.
fn short_packets(list: &mut List) {
    list.ask("h264.read 0 - -");
    for first in 0..=255u8 {
        for rest in ["", "10", "8511", "451122"] {
            let (avc, run) = (list.random.below(2), list.random.pick(&["-", "aabb"]));
            list.ask(format!("h264.read {avc} {run} {first:02x}{rest}"));
        }
    }
}

/// "17: STAP-A size past the packet"; "18: one byte left where STAP-A needs a two-byte size".
fn aggregates(list: &mut List) {
    for len in 2..=5 {
        for rest in strings(&[0, 1, 2], len) {
            let avc = list.random.below(2);
            list.ask(format!("h264.read {avc} - 78{}", hex(&rest)));
        }
    }
    for _ in 0..150 {
        let mut packet = vec![list.random.pick(&[0x18, 0x78, 0xF8])];
        for _ in 0..1 + list.random.below(4) {
            let len = list.random.pick(&[0, 1, 2, 3, 9]);
            packet.extend([0, len as u8]);
            packet.extend(list.random.bytes(len));
        }
        let damaged = list.random.damaged(&packet);
        for packet in [packet, damaged] {
            read(list, "0", "c1c2", &packet);
            read(list, "1", "-", &packet);
        }
    }
    list.ask("h264.read 0 - 78ffff414243");
    list.ask("h264.read 0 - 78010041");
}

/// Asks without rooms, and at times with exactly the room, with one place less of each, and with
/// none; the first answer.
fn read(list: &mut List, avc: &str, run: &str, packet: &[u8]) -> String {
    let question = format!("h264.read {avc} {run} {}", hex(packet));
    let answer = list.ask(question.clone());
    if !list.random.one_in(4) {
        return answer;
    }
    let len = |word: &str| if word == "-" { 0 } else { word.len() / 2 };
    let output = answer.rsplit(' ').next().filter(|_| answer.starts_with("ok")).map_or(0, len);
    let is_fragment = packet.first().is_some_and(|first| first & 31 == 28);
    let gather = len(run) + if is_fragment { packet.len().saturating_sub(2) } else { 0 };
    let (less, shorter) = (gather.saturating_sub(1), output.saturating_sub(1));
    for (gather, output) in [(gather, output), (less, output), (gather, shorter), (0, 0)] {
        list.ask(format!("{question} {gather} {output}"));
    }
    answer
}

/// Every second byte of an FU-A; runs in order, with starts and ends anywhere, and other packets
/// between.
fn fragments(list: &mut List) {
    for second in 0..=255u8 {
        let (avc, run) = (list.random.pick(&["0", "1"]), list.random.pick(&["-", "aabb"]));
        let first = list.random.pick(&[0x1C, 0x3C, 0x7C, 0xFC]);
        read(list, avc, run, &[first, second, 0x33]);
    }
    let packets: [&[u8]; 10] = [
        &[0x7C, 0x85, 0x11],
        &[0x7C, 0x05, 0x22, 0x23],
        &[0x5C, 0x41, 0x33],
        &[0x9C, 0xC7, 0x44],
        &[0x65, 0x01, 0x02],
        &[0x78, 0x00, 0x01, 0x41],
        &[0x78, 0x00, 0x05, 0x41],
        &[0x78, 0x00, 0x01, 0x41, 0x00],
        &[0x7D, 0x85, 0x11],
        &[0x7C, 0x85],
    ];
    for _ in 0..60 {
        let avc = list.random.pick(&["0", "1"]);
        let mut run = "-".to_string();
        for _ in 0..8 {
            let packet = list.random.pick(&packets);
            run = next_run(read(list, avc, &run, packet), run);
        }
    }
}

/// The run after an answer; a refusal leaves it as it was.
fn next_run(answer: String, run: String) -> String {
    match answer.strip_prefix("ok ").and_then(|rest| rest.split_once(' ')) {
        Some((run, _)) => run.to_string(),
        None => run,
    }
}

/// Lengths of more than one byte, behind both prefixes: of a unit alone, in a STAP-A and joined.
fn long_units(list: &mut List) {
    for len in [255, 256, 257, 1_000] {
        let unit: Vec<u8> = (0x65..0x65 + len).map(|byte| byte as u8).collect();
        let size = (len as u16).to_be_bytes();
        let aggregate = [&[0x78], &size[..], &unit, &[0, 2, 0x41, 0x42]].concat();
        let (run, last) = (hex(&unit[1..101]), [&[0x7C, 0x45], &unit[101..]].concat());
        for avc in ["0", "1"] {
            read(list, avc, "c1c2", &unit);
            read(list, avc, "-", &aggregate);
            read(list, avc, &run, &last);
        }
    }
}

/// The order 8, 4, 19, 17 or 18, 6, 5, with rooms that would be refused too.
fn reading_limits(list: &mut List) {
    let packets = "- 7c 7c85 7d0000 780005414243 7800014100 7c8501 7c4501 650102 0910";
    for packet in packets.split(' ') {
        for run in ["-", "01", "0102"] {
            for room in ["0 0", "1 0", "1 6", "2 0", "2 6", "2 7", "3 7", "3 8", "900 900"] {
                list.ask(format!("h264.read 0 {run} {packet} {room}"));
            }
        }
    }
}

/// Frames sent one after the other by one sender, and their packets read one after the other, some
/// damaged.
fn shows(list: &mut List) {
    for _ in 0..30 {
        let (mut sets, mut run) = ("- -".to_string(), "-".to_string());
        let avc = list.random.pick(&["0", "1"]);
        for _ in 0..5 {
            let mtu = list.random.pick(&[0, 2, 3, 4, 5, 9, 12, 30]);
            let frame = frame(&mut list.random);
            let answer = send(list, mtu, &sets, &frame);
            let words: Vec<&str> = answer.split(' ').collect();
            let ["ok", sps, pps, _, _, packets] = words[..] else {
                continue;
            };
            sets = format!("{sps} {pps}");
            for packet in packets.split(',').filter(|packet| *packet != "-").take(6) {
                let packet = bytes(packet);
                let packet =
                    if list.random.one_in(6) { list.random.damaged(&packet) } else { packet };
                run = next_run(read(list, avc, &run, &packet), run);
            }
        }
    }
}

/// Frames with a pair between each two of their units, of which some or all are dropped for the mtu.
fn drops(list: &mut List) {
    let pair = [0, 0, 1, 0x67, 0xEE, 0, 0, 1, 0x68, 0xDD, 0, 0, 1];
    let units: [&[u8]; 4] = [&[0x65], &[0x65, 1], &[0x65, 1, 2], &[0x41; 13]];
    for sets in ["- -", "67aa 68bb", "6701 680102"] {
        for mtu in 0..=12 {
            send(list, mtu, sets, &[]);
            for at in 0..units.len() {
                let [first, second, third] = [at, at + 1, at + 2].map(|at| units[at % units.len()]);
                let frame = [&[0, 0, 1], first, &pair, second, &pair, third].concat();
                send(list, mtu, sets, &frame);
            }
        }
    }
}

fn frame(random: &mut Random) -> Vec<u8> {
    let mut frame = vec![];
    for _ in 0..random.below(5) {
        frame.extend(vec![0; 2 + random.below(3)]);
        frame.push(1);
        frame
            .push(random.pick(&[0x65, 0x41, 0xE5, 0x67, 0x68, 0x67, 0x68, 0x09, 0x0C, 0x00, 0x18]));
        let len = random.pick(&[0, 1, 2, 3, 4, 5, 11]);
        frame.extend((0..len).map(|_| random.pick(&[0, 1, 2, 0xAB])));
    }
    frame
}

fn bytes(hex: &str) -> Vec<u8> {
    let pairs = (0..hex.len() / 2).map(|place| &hex[2 * place..2 * place + 2]);
    pairs.map(|pair| u8::from_str_radix(pair, 16).expect("hex")).collect()
}
