//! Questions about VP8 payloads.

use oracle::text::hex;

use crate::cases;
use crate::list::List;
use crate::random::strings;
use crate::vectors;

const FRESH: &str = "0 0 0 0 0 0 0 0 0 0 0 0 0";

pub fn rows(list: &mut List) {
    cases::vp8(list);
    published(list);
    partitions(list);
    headers_and_mtus(list);
    picture_ids(list);
    sending_limits(list);
    descriptors(list);
    first_bytes(list);
    kept_fields(list);
    odd_flags(list);
    random_packets(list);
    shows(list);
}

fn published(list: &mut List) {
    for vector in vectors::each(vectors::VP8) {
        list.ask(format!("vp8.read {FRESH} {vector}"));
        list.ask(format!("vp8.head {vector}"));
        for (enable, id) in [(0, 0), (1, 0), (1, 32), (1, 288)] {
            for mtu in [1, 2, 5, 6] {
                list.ask(format!("vp8.send {enable} {id} {mtu} {vector}"));
            }
        }
    }
}

fn partitions(list: &mut List) {
    for first in 0..=255u8 {
        list.ask(format!("vp8.head {first:02x}"));
        list.ask(format!("vp8.head {first:02x}{:02x}00", !first));
    }
    list.ask("vp8.head -");
    list.ask("vp8.tail 0");
    list.ask("vp8.tail 1");
}

fn send(list: &mut List, enable: u8, id: usize, mtu: usize, frame: &[u8]) -> String {
    list.ask_sender(format!("vp8.send {enable} {id} {mtu} {}", hex(frame)))
}

/// "No picture id: 1 header byte. Ids under 128: 3, else 4"; an mtu not above that gives no
/// packets.
fn headers_and_mtus(list: &mut List) {
    for (enable, id) in [(0, 0), (0, 128), (1, 0), (1, 127), (1, 128), (1, 32_767)] {
        for mtu in 0..9 {
            for len in 0..9 {
                let frame: Vec<u8> = (0xA0..0xA0 + len).collect();
                send(list, enable, id, mtu, &frame);
            }
        }
    }
    for len in [99, 100, 101, 199, 200, 201] {
        send(list, 1, 5, 103, &vec![0x42; len]);
    }
}

/// "after 0x7FFF comes 0", shown or not.
fn picture_ids(list: &mut List) {
    for enable in [0, 1] {
        for id in
            [0, 1, 126, 127, 128, 129, 255, 256, 257, 511, 16_383, 16_384, 32_765, 32_766, 32_767]
        {
            for mtu in [2, 4, 5, 6] {
                send(list, enable, id, mtu, &[0xAA, 0xBB]);
            }
        }
    }
}

fn sending_limits(list: &mut List) {
    for enable in [0, 1] {
        for id in [32_767, 32_768, 32_769, 65_535] {
            for mtu in [0, 5, 65_534, 65_535, 65_536, 1usize << 40] {
                for frame in ["-", "aabb"] {
                    list.ask(format!("vp8.send {enable} {id} {mtu} {frame}"));
                    list.ask(format!("vp8.send {enable} {id} {mtu} {frame} 0 0"));
                }
            }
        }
    }
}

/// Every set of control bits, a short and a long picture id, every length from none to a payload of
/// a byte or two.
fn descriptors(list: &mut List) {
    for control in 0..16u8 {
        for id in [0x05, 0x85, 0xFF] {
            let whole = [0xB3, control << 4 | 0x09, id, 0x66, 0x77, 0xF9, 0x88, 0x99];
            for len in 0..=whole.len() {
                list.ask(format!("vp8.read {FRESH} {}", hex(&whole[..len])));
            }
        }
    }
}

fn first_bytes(list: &mut List) {
    for first in 0..=255u8 {
        for rest in ["800511", "10aabbcc", "0f0102"] {
            list.ask(format!("vp8.read {FRESH} {first:02x}{rest}"));
        }
    }
    for rest in strings(&[0x00, 0x80, 0xF0, 0xFF], 4) {
        list.ask(format!("vp8.read {FRESH} {}", hex(&rest)));
    }
}

/// "Fields keep old values: with X clear after a packet with I set, I still counts."
fn kept_fields(list: &mut List) {
    for flags in 0..16 {
        let [i, l, t, k] = [3, 2, 1, 0].map(|bit| flags >> bit & 1);
        let old = format!("1 1 1 7 {i} {l} {t} {k} 4660 171 2 1 29");
        for packet in [
            "10",
            "10aabb",
            "10050708",
            "1085070809",
            "1005",
            "00ff07e102",
            "908005aa",
            "80300102",
            "100507",
        ] {
            list.ask(format!("vp8.read {old} {packet}"));
        }
        for len in 4..8 {
            list.ask(format!(
                "vp8.read {old} {}",
                hex(&[0x20, 0x81, 0x02, 0x63, 0x44, 0x55, 0x66][..len])
            ));
        }
    }
}

/// Flags that are neither 0 nor 1, and picture ids around the limit.
fn odd_flags(list: &mut List) {
    for odd in [2, 128, 255] {
        for place in 0..13 {
            let fields: Vec<String> =
                (0..13).map(|at| if at == place { odd } else { 0 }.to_string()).collect();
            for packet in ["100708e5", "90f00708e501"] {
                list.ask(format!("vp8.read {} {packet}", fields.join(" ")));
            }
        }
    }
    for id in [32_766, 32_767, 32_768, 65_535] {
        for packet in ["-", "10aabb", "10aabbcc", "9080ffffcc"] {
            list.ask(format!("vp8.read 0 0 0 0 0 0 0 0 {id} 0 0 0 0 {packet}"));
            list.ask(format!("vp8.read 0 0 0 0 1 0 0 0 {id} 0 0 0 0 {packet}"));
        }
    }
}

/// The fields after an answer; of refusals only 4 shows them.
fn next_fields(answer: &str) -> Option<String> {
    let (_, fields) =
        answer.strip_prefix("ok ").or(answer.strip_prefix("refused "))?.split_once(' ')?;
    Some(fields.to_string())
}

/// Random packets read one after the other by one reader.
fn random_packets(list: &mut List) {
    for _ in 0..80 {
        let mut fields = FRESH.to_string();
        for _ in 0..12 {
            let len = list.random.pick(&[2, 3, 4, 4, 5, 5, 6, 7, 9]);
            let packet = list.random.bytes(len);
            let answer = list.ask(format!("vp8.read {fields} {}", hex(&packet)));
            fields = next_fields(&answer).unwrap_or(fields);
        }
    }
}

/// Frames sent one after the other by one sender, and their packets read one after the other.
fn shows(list: &mut List) {
    for start in [0, 125, 32_765, 7, 300] {
        let (mut id, mut fields) = (start, FRESH.to_string());
        for _ in 0..12 {
            let enable = u8::from(!list.random.one_in(4));
            let (mtu, len) = (list.random.pick(&[3, 4, 5, 8]), list.random.below(9));
            let frame = list.random.bytes(len);
            let answer = send(list, enable, id, mtu, &frame);
            let Some((next, packets)) =
                answer.strip_prefix("ok ").and_then(|rest| rest.split_once(' '))
            else {
                continue;
            };
            id = next.parse().expect("a picture id");
            for packet in packets.split(',') {
                let answer = list.ask(format!("vp8.read {fields} {packet}"));
                fields = next_fields(&answer).unwrap_or(fields);
            }
        }
    }
}
