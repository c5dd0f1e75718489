//! Start codes, and what is nearly one, where a search that skips bytes or looks at sixteen at a
//! time could go wrong. It may begin anywhere, so that blocks of sixteen have no fixed places.

use oracle::text::hex;

use crate::frames::{above_one, runs};
use crate::list::List;

pub fn rows(list: &mut List) {
    at_each_place(list);
    from_each_start(list);
    long_zeros(list);
    at_the_end(list);
    near_codes(list);
    random_runs(list);
}

/// Codes, and parts that are none.
const PARTS: [&[u8]; 9] = [
    &[0, 0, 1],
    &[0, 0, 0, 1],
    &[0, 0, 0, 0, 1],
    &[0, 0, 0, 0, 0, 1],
    &[1],
    &[0],
    &[0, 1],
    &[0, 0, 2],
    &[0, 0, 0],
];

/// So many bytes, of which none but those of the part at this place is 0 or 1.
fn with(part: &[u8], place: usize, len: usize) -> Vec<u8> {
    let mut bytes = above_one(len);
    bytes[place..place + part.len()].copy_from_slice(part);
    bytes
}

fn next(list: &mut List, frame: &[u8], start: usize) {
    list.ask(format!("h264.next {} {start}", hex(frame)));
}

/// Sends with room and an mtu for any such frame, so that each unit has its packet.
fn send(list: &mut List, frame: &[u8]) {
    list.ask(format!("h264.send 200 - - {}", hex(frame)));
}

/// The first block of a search begins three places behind its start, the next ones 16 behind that.
fn at_each_place(list: &mut List) {
    for part in PARTS {
        for place in 0..=36 - part.len() {
            next(list, &with(part, place, 36), 0);
        }
        for place in 14..=20 {
            send(list, &[&[0, 0, 1, 0x65], &with(part, place, 36)[..]].concat());
        }
    }
}

/// Starts before, in and behind a code, and one that the frame does not have.
fn from_each_start(list: &mut List) {
    let code = with(&[0, 0, 0, 1], 36, 48);
    let zeros = with(&[0; 24], 3, 30);
    for frame in [code, zeros, [&[0; 34][..], &[1]].concat()] {
        for start in 0..=frame.len() + 1 {
            next(list, &frame, start);
        }
    }
}

/// Zeros of every number, then a 1, another byte, or the frame's end.
fn long_zeros(list: &mut List) {
    for zeros in 2..=40 {
        for before in [zeros % 3, list.random.below(20)] {
            let front = [above_one(before), vec![0; zeros]].concat();
            for end in [1, 2] {
                let behind = above_one(list.random.below(20));
                next(list, &[&front[..], &[end], &behind].concat(), 0);
            }
            next(list, &front, 0);
        }
    }
}

/// Frames of lengths around 16 and 32 that end with a code, whole or cut.
fn at_the_end(list: &mut List) {
    let tails: [&[u8]; 6] = [&[0], &[0, 0], &[0, 0, 0], &[0, 1], &[0, 0, 1], &[0, 0, 1, 0x65]];
    for len in (15..=19).chain(31..=35) {
        for tail in tails {
            let frame = with(tail, len - tail.len(), len);
            next(list, &frame, 0);
            send(list, &frame);
        }
    }
}

/// Two codes with so many bytes between them.
fn near_codes(list: &mut List) {
    for zeros in [2, 3] {
        for between in 0..=20 {
            let second = [&vec![0; zeros][..], &[1, 0x41, 7]].concat();
            send(list, &[&[0, 0, 1], &above_one(between)[..], &second].concat());
        }
    }
}

fn random_runs(list: &mut List) {
    for _ in 0..40 {
        let least = 16 + list.random.below(45);
        let frame = runs(&mut list.random, &[0x41], least);
        next(list, &frame, 0);
        let start = list.random.below(frame.len());
        next(list, &frame, start);
        send(list, &frame);
    }
}
