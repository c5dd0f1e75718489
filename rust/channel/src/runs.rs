//! Runs of calls: a joiner is opened, packets arrive, and it is closed.

use crate::joiner::distance;
use crate::random::Random;
use crate::sender::{
    dressed, fragment, fragments, group, head, marked, packet, relayed, unit, Group, Show, Stamp,
    END, START,
};

/// How long a lent buffer is at the most.
pub const PLACES: usize = 128;

pub enum Call {
    Join(Vec<u8>),
    Close(u16),
    /// From now on the buffers have these lengths.
    Room {
        gather: usize,
        out: usize,
    },
}

pub struct Run {
    /// with its source and number the joiner is opened
    pub first: Stamp,
    /// the missed total that the record starts with
    pub missed: u32,
    pub gather: usize,
    pub out: usize,
    pub calls: Vec<Call>,
}

/// A run of one of the kinds, most often a channel.
pub fn run(random: &mut Random) -> Run {
    match random.below(27) {
        0..=11 => channel(random),
        12 | 13 => jumps(random, 0),
        14 => full(random),
        15..=17 => rooms(random),
        18 | 19 => odd(random, payload),
        20 => odd(random, header),
        21 => odd(random, stranger),
        22 => odd(random, intruder),
        23 => marks(random),
        24 | 25 => encoders(random),
        _ => closings(random),
    }
}

/// The stamp of a first packet, of a source that one byte tells.
fn first(random: &mut Random) -> Stamp {
    let source = random.byte().into();
    Stamp::first(random, source)
}

// ---- a channel that loses, repeats, reorders, damages and mixes in other sources

fn channel(random: &mut Random) -> Run {
    let groups = if random.one_in(30) { 7 } else { random.within(1..=2) };
    let show = Show::new(random, groups);
    let gather = tight(random, show.longest());
    let out = tight(random, show.largest());
    let mut calls: Vec<Call> = arrivals(random, &show).into_iter().map(Call::Join).collect();
    calls.push(Call::Close(show.end()));
    after_closing(random, &show, &mut calls);
    Run { first: show.first, missed: 0, gather, out, calls }
}

/// As many places as are needed, or now and then one less.
fn tight(random: &mut Random, needed: usize) -> usize {
    needed.saturating_sub(random.one_in(12).into())
}

/// The indices of the packets that arrive, in the order in which they do.
pub fn order(random: &mut Random, packets: usize) -> Vec<usize> {
    let mut order = vec![];
    for i in 0..packets {
        if random.one_in(10) {
            continue;
        }
        order.push(i);
        if random.one_in(12) {
            order.push(i);
        }
    }
    for place in 1..order.len() {
        if random.one_in(8) {
            order.swap(place, random.within(place.saturating_sub(3)..=place - 1));
        }
    }
    order
}

fn arrivals(random: &mut Random, show: &Show) -> Vec<Vec<u8>> {
    let mut arrivals = vec![];
    for i in order(random, show.packets.len()) {
        if random.one_in(14) {
            arrivals.push(foreign(random, show));
        }
        let sent = &show.packets[i];
        if random.one_in(14) {
            arrivals.push(damaged(random, sent));
            if random.one_in(2) {
                continue;
            }
        }
        arrivals.push(sent.clone());
    }
    arrivals
}

/// A packet of ours with another SSRC.
pub fn foreign(random: &mut Random, show: &Show) -> Vec<u8> {
    let mut bytes = show.packets[random.below(show.packets.len())].clone();
    bytes[8 + random.below(4)] ^= 1 << random.below(8);
    bytes
}

fn damaged(random: &mut Random, sent: &[u8]) -> Vec<u8> {
    let mut bytes = sent.to_vec();
    let place = random.below(bytes.len());
    match random.below(4) {
        0 => bytes[place] = random.byte(),
        1 => bytes[place] ^= 1 << random.below(8),
        2 => bytes.truncate(place),
        // the bytes that say which kind of payload it is
        _ => bytes[(12 + random.below(2)).min(place)] = random.byte(),
    }
    bytes
}

fn after_closing(random: &mut Random, show: &Show, calls: &mut Vec<Call>) {
    match random.below(8) {
        0 => calls.push(Call::Join(show.packets[0].clone())),
        1 => calls.push(Call::Join(foreign(random, show))),
        2 => calls.push(Call::Close(show.end())),
        _ => {}
    }
}

// ---- numbers far ahead and behind

/// Distances around the limit of Late, and around 0.
const DISTANCES: [usize; 16] =
    [0, 0, 0, 0, 0, 1, 1, 2, 3, 32_766, 32_767, 32_767, 32_768, 32_769, 65_534, 65_535];

fn jumps(random: &mut Random, missed: u32) -> Run {
    let first = first(random);
    let (mut awaited, mut calls) = (first, vec![]);
    for _ in 0..random.within(2..=5) {
        let d = random.pick(&DISTANCES);
        let payload = piece(random);
        let stamp = awaited.on(d).astray(random, 6);
        calls.push(Call::Join(dressed(random, stamp, &payload)));
        if d < 32_768 {
            awaited = awaited.on(d + 1);
        }
    }
    calls.push(Call::Close(awaited.on(random.pick(&DISTANCES)).number));
    Run { first, missed, gather: 16, out: 40, calls }
}

/// A fragment of a unit, or at times another payload, behind a relay.
fn piece(random: &mut Random) -> Vec<u8> {
    let part = random.bytes(1..=4);
    let payload = match random.below(9) {
        0..=3 => fragment(head(random), START, &part),
        4 | 5 => fragment(head(random), 0, &part),
        6 | 7 => fragment(head(random), END, &part),
        _ => group(random).payloads[0].clone(),
    };
    relayed(random, payload)
}

/// "24: missed total would pass 4,294,967,295".
fn full(random: &mut Random) -> Run {
    let left = random.pick(&[0, 0, 1, 2, 3, 32_766, 32_767, 32_768]);
    jumps(random, u32::MAX - left)
}

// ---- buffers that are too small

fn rooms(random: &mut Random) -> Run {
    let first = first(random);
    let mut calls = vec![];
    let mut i = 0;
    for _ in 0..random.within(3..=6) {
        if random.one_in(3) {
            calls.push(Call::Room { gather: random.below(5), out: random.below(14) });
        }
        let payload = piece(random);
        let stamp = first.on(i).astray(random, 4);
        calls.push(Call::Join(packet(random, stamp, &payload)));
        // a packet that was refused for its room is sent again
        i += random.below(2);
    }
    calls.push(Call::Close(first.on(i).number));
    Run { first, missed: 0, gather: random.below(8), out: random.within(5..=14), calls }
}

// ---- a packet that is out of the ordinary, in the midst of a unit

fn odd(random: &mut Random, odd: fn(&mut Random, Stamp) -> Vec<u8>) -> Run {
    let first = first(random);
    let head = head(random);
    let sent = |i: usize, bits: u8, random: &mut Random| {
        let part = random.bytes(1..=3);
        let payload = relayed(random, fragment(head, bits, &part));
        Call::Join(packet(random, first.on(i), &payload))
    };
    let mut calls = vec![sent(0, START, random)];
    for _ in 0..random.within(1..=3) {
        let stamp = first.on(1).astray(random, 2);
        calls.push(Call::Join(odd(random, stamp)));
    }
    calls.push(sent(random.within(1..=2), END, random));
    calls.push(Call::Close(first.on(random.within(2..=3)).number));
    let (gather, out) = (random.pick(&[4, 16, PLACES]), random.pick(&[8, PLACES, PLACES]));
    Run { first, missed: 0, gather, out, calls }
}

/// A payload too short, of any type, or of a STAP-A or FU-A that is not right.
fn payload(random: &mut Random, stamp: Stamp) -> Vec<u8> {
    let payload = match random.below(5) {
        0 => random.bytes(0..=2),
        1 => [vec![9], random.bytes(0..=1)].concat(),
        2 => [vec![random.pick(&[0, 25, 26, 27, 29, 30, 31]) | 0x60], random.bytes(2..=3)].concat(),
        3 => [vec![0x78], stap_a(random)].concat(),
        _ => fragment(head(random), random.pick(&[START | END, START | END, END, 0]), &[7]),
    };
    let payload = relayed(random, payload);
    packet(random, stamp, &payload)
}

/// Sizes that are right, too large or cut off.
fn stap_a(random: &mut Random) -> Vec<u8> {
    let mut bytes = vec![];
    for _ in 0..random.within(1..=2) {
        let unit = unit(random);
        let len = unit.len();
        let size = random.pick(&[len, len, len, len - 1, 0, len + 1, 256 + len]);
        bytes.extend((size as u16).to_be_bytes());
        bytes.extend(unit);
    }
    if random.one_in(2) {
        bytes.push(0);
    }
    bytes
}

/// A header that is too short, or with extensions or padding of any kind.
fn header(random: &mut Random, stamp: Stamp) -> Vec<u8> {
    let payload = unit(random);
    let mut bytes = packet(random, stamp, &payload);
    match random.below(8) {
        0 => bytes.truncate(random.below(13)),
        1 => bytes[0] = 0x80 + random.below(4) as u8,
        2 => {
            bytes[0] = 0xA0;
            bytes.push(random.below(12) as u8);
        }
        3 => bytes.splice(..1, [0x90]).for_each(drop),
        4 => extend(&mut bytes, &[0x10, 0, 0, 17], &[[1, 0]; 34].concat()),
        5 => {
            let profile = random.pick(&[[0xBE, 0xDE], [0x10, 0], [0xAB, 0xCD]]);
            let block = random.bytes(4..=4);
            extend(&mut bytes, &[profile[0], profile[1], 0, 1], &block);
        }
        _ => {
            let block = [random.pick(&[0x00, 0x10, 0x12, 0xF0, 0x1F]), 0, random.byte(), 3];
            let profile = random.pick(&[[0xBE, 0xDE], [0x10, 0]]);
            extend(&mut bytes, &[profile[0], profile[1], 0, 1], &block);
            bytes.truncate(random.within(16..=bytes.len()));
        }
    }
    bytes
}

fn extend(bytes: &mut Vec<u8>, front: &[u8], block: &[u8]) {
    bytes[0] |= 0x10;
    bytes.splice(12..12, [front, block].concat());
}

/// A packet of another source, whatever it holds.
fn stranger(random: &mut Random, stamp: Stamp) -> Vec<u8> {
    let source = stamp.source ^ (1 << random.below(32));
    let payload = piece(random);
    dressed(random, Stamp { source, ..stamp }, &payload)
}

/// A fragment of a second encoder's unit, now and then one that is too short.
fn intruder(random: &mut Random, stamp: Stamp) -> Vec<u8> {
    let (head, part) = (head(random), random.bytes(0..=5));
    let bits = random.pick(&[0, 0, END, END, START, START | END]);
    let payload = relayed(random, fragment(head, bits, &part));
    let stamp = stamp.beside(random);
    packet(random, stamp, &payload)
}

// ---- a mark that goes with its run

/// Marked fragments of a unit whose last never comes, behind them at times a gap or a payload that is no start, and a unit of clean
/// fragments, most often of another time. A marked copy of the first packet may come again at any time.
fn marks(random: &mut Random) -> Run {
    let first = first(random);
    let mut dropped = fragments(random).payloads;
    dropped.pop();
    let place = random.below(dropped.len());
    dropped[place] = marked(dropped[place].clone());
    let between = match random.below(6) {
        0 => vec![unit(random)],
        1 => Group::aggregated(&[unit(random)]).payloads,
        2 => vec![marked(fragment(head(random), random.pick(&[0, END]), &[7]))],
        _ => vec![],
    };
    let behind = first.on(dropped.len() + random.pick(&[0, 0, 1, 2]));
    let clean = behind.on(between.len()).beside(random);
    let unit = fragments(random).payloads;
    let mut packets = numbered(random, first, &dropped);
    packets.extend(numbered(random, behind, &between));
    packets.extend(numbered(random, clean, &unit));
    if random.one_in(3) {
        let stamp = first.astray(random, 2);
        let copy = packet(random, stamp, &marked(dropped[0].clone()));
        packets.insert(random.within(1..=packets.len()), copy);
    }
    let mut calls: Vec<Call> = packets.into_iter().map(Call::Join).collect();
    calls.push(Call::Close(clean.on(unit.len()).number));
    Run { first, missed: 0, gather: 40, out: 40, calls }
}

/// These payloads as packets, numbered from the first one's stamp on, all of its time.
fn numbered(random: &mut Random, first: Stamp, payloads: &[Vec<u8>]) -> Vec<Vec<u8>> {
    let packets = payloads.iter().enumerate();
    packets.map(|(i, payload)| packet(random, first.on(i), payload)).collect()
}

// ---- a second encoder

/// "Two encoders sharing a failover SSRC once continued each other's unit."
fn encoders(random: &mut Random) -> Run {
    let first = first(random);
    let [one, other] = two_encoders(random, first);
    let gather = tight(random, one.longest().max(other.longest()));
    let out = tight(random, one.largest().max(other.largest()));
    let arrivals = mixed(random, &one, &other);
    let mut calls: Vec<Call> = arrivals.into_iter().map(Call::Join).collect();
    calls.push(Call::Close(random.pick(&[one.end(), other.end()])));
    Run { first, missed: 0, gather, out, calls }
}

/// Units and times of their own under one SSRC. The other's numbers are the one's, or begin a little later, or go on behind them.
pub fn two_encoders(random: &mut Random, first: Stamp) -> [Show; 2] {
    let one = Show::in_fragments(random, first);
    let later = random.pick(&[0, 0, 0, 1, 2, one.packets.len()]);
    let first = first.on(later).beside(random);
    [one, Show::in_fragments(random, first)]
}

/// What arrives of both: they are sent in the order of their numbers, and of one number either may be sent first.
pub fn mixed(random: &mut Random, one: &Show, other: &Show) -> Vec<Vec<u8>> {
    let later = distance(other.first.number, one.first.number);
    let sent = (0..).zip(&one.packets).chain((later..).zip(&other.packets));
    let mut sent: Vec<_> = sent.map(|(place, sent)| (place, random.byte(), sent)).collect();
    sent.sort();
    order(random, sent.len()).into_iter().map(|i| sent[i].2.clone()).collect()
}

// ---- closing

fn closings(random: &mut Random) -> Run {
    let first = first(random);
    let missed = random.pick(&[0, 0, 7, u32::MAX, u32::MAX - 1, u32::MAX - 32_767]);
    let part = random.bytes(1..=3);
    let start = fragment(head(random), START, &part);
    let start = relayed(random, start);
    let mut calls = vec![Call::Join(packet(random, first, &start))];
    for _ in 0..random.within(1..=4) {
        calls.push(Call::Close(first.on(1 + random.pick(&DISTANCES)).number));
        if random.one_in(3) {
            let payload = piece(random);
            let stamp = first.on(1).astray(random, 6);
            calls.push(Call::Join(packet(random, stamp, &payload)));
        }
    }
    Run { first, missed, gather: 16, out: 40, calls }
}
