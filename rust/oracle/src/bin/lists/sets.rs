//! Parameter sets that wait from before a frame and sets of the frame itself, in every order with
//! units that are sent: a pair may have one of each.

use oracle::text::hex;

use crate::h264::send;
use crate::list::List;
use crate::random::{strings, Random};

pub fn rows(list: &mut List) {
    in_each_order(list);
    long_sets(list);
    across_frames(list);
}

const HEADS: [u8; 3] = [0x67, 0x68, 0x65];

/// Longer than the sets of the frames below, so that what stands behind a shorter one shows.
const SPS: &str = "67a1a2a3a4a5a6a7a8";
const PPS: &str = "68b1b2b3b4b5b6";

/// A unit behind a start code, its bytes unlike those of any with another number.
fn unit(head: u8, number: usize, len: usize) -> Vec<u8> {
    [&vec![0; 2 + number % 2][..], &[1, head], &vec![0xC0 + number as u8; len - 1]].concat()
}

/// At mtu 21 any pair can be sent; a unit to be sent goes in fragments if it is the frame's first.
fn in_each_order(list: &mut List) {
    for len in 1..=3 {
        for heads in strings(&HEADS, len) {
            let units = heads.iter().enumerate().map(|(number, head)| {
                unit(*head, number, if *head == 0x65 { 22 - 8 * number } else { 2 + number })
            });
            let frame = units.collect::<Vec<_>>().concat();
            for (sps, pps) in [("-", "-"), (SPS, "-"), ("-", PPS), (SPS, PPS)] {
                let mtu = list.random.pick(&[12, 16, 21, 21, 21, 21]);
                send(list, mtu, &format!("{sps} {pps}"), &frame);
            }
        }
    }
}

/// One set is held and long, the other stands in the frame before the unit that is sent.
fn long_sets(list: &mut List) {
    for len in [100, 256] {
        let coded = unit(0x65, 2, 9);
        let long = |head: u8| hex(&[&[head][..], &vec![0x5A; len - 1]].concat());
        let (sps, pps) = (format!("{} -", long(0x67)), format!("- {}", long(0x68)));
        for (sets, head) in [(sps, 0x68), (pps, 0x67)] {
            let frame = [unit(head, 1, 6), coded.clone()].concat();
            list.ask(format!("h264.send {} {sets} {}", 5 + len + 6, hex(&frame)));
            list.ask(format!("h264.send 9 {sets} {} 0 0", hex(&frame)));
        }
    }
}

/// Frames of few units, of which one in four is sent, through one sender.
fn across_frames(list: &mut List) {
    for _ in 0..10 {
        let mut sets = "- -".to_string();
        for _ in 0..6 {
            let mtu = list.random.pick(&[9, 14, 25, 60]);
            let frame = frame(&mut list.random);
            let answer = send(list, mtu, &sets, &frame);
            if let ["ok", sps, pps, ..] = answer.split(' ').collect::<Vec<_>>()[..] {
                sets = format!("{sps} {pps}");
            }
        }
    }
}

fn frame(random: &mut Random) -> Vec<u8> {
    let mut frame = vec![];
    for number in 0..random.below(4) {
        let head = random.pick(&[0x67, 0x67, 0x68, 0x68, 0x68, 0x65, 0x41, 0x27]);
        let len = random.pick(&[1, 2, 5, 9, 17, 20]);
        frame.extend(unit(head, 4 * random.below(8) + number, len));
    }
    frame
}
