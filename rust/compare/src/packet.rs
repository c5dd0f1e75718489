//! The calls on packets.

use bytes::Bytes;
use oracle::packet::Packet;
use rtp_rattle::packet::Packet as Lent;
use util::marshal::{Marshal, MarshalSize, Unmarshal};

use crate::header::{Pair, USED};
use crate::limits;
use crate::records::same;
use crate::show::Hex;
use crate::tally::Tally;
use crate::verdict::{Case, Theirs};

pub fn unmarshal(tally: &mut Tally, packet: &Bytes) {
    let theirs = Theirs::of(|| Packet::unmarshal(&mut packet.clone()));
    let case = |call| Case {
        before: limits::reading(packet),
        panic: limits::past(packet),
        ..Case::new(call, Hex(packet))
    };
    let answer = Lent::unmarshal(packet);
    case("packet unmarshal").judge(tally, &answer, &theirs, true, |ours, theirs| {
        same(&ours.header, &theirs.header) && *ours.payload == theirs.payload[..]
    });
    let used = Lent { header: USED, payload: b"used" };
    let mut into = used;
    let read = into.unmarshal_into(packet);
    let kept = into == used;
    case("packet unmarshal_into").judge(tally, &read, &theirs, kept, |(), theirs| {
        same(&into.header, &theirs.header)
            && *into.payload == theirs.payload[..]
            && answer == Ok(into)
    });
}

/// The size, and the packet written to buffers around that size.
pub fn marshal(tally: &mut Tally, header: &Pair, payload: &Bytes, fill: u8) {
    let whole = Packet { header: header.theirs.clone(), payload: payload.clone() };
    let lent = Lent { header: header.ours, payload };
    marshal_size(tally, &lent, &whole);
    // A larger size is asked about with a buffer that is too small.
    let size = Theirs::sure(|| whole.marshal_size()).answer().map_or(0, |size| *size.min(&80_000));
    for len in [size.saturating_sub(1), size, size + 3] {
        marshal_to(tally, &lent, &whole, len, fill);
    }
}

fn marshal_size(tally: &mut Tally, lent: &Lent, whole: &Packet) {
    let theirs = Theirs::sure(|| whole.marshal_size());
    let answer = lent.marshal_size();
    let before = limits::record(&whole.header).or_else(|| limits::packet(&whole.payload));
    let case = Case { before, ..Case::new("packet marshal_size", whole) };
    case.judge(tally, &answer, &theirs, true, |ours, theirs| ours == theirs);
}

fn marshal_to(tally: &mut Tally, lent: &Lent, whole: &Packet, len: usize, fill: u8) {
    let (mut ours, mut theirs) = (vec![fill; len], vec![fill; len]);
    let untouched = ours.clone();
    let told = Theirs::of(|| whole.marshal_to(&mut theirs));
    let answer = lent.marshal_to(&mut ours);
    let case = Case {
        before: limits::written(&whole.header).or_else(|| limits::packet(&whole.payload)),
        wrote: theirs != untouched,
        ..Case::new("packet marshal_to", (whole, len, fill))
    };
    case.judge(tally, &answer, &told, ours == untouched, |count, told| {
        count == told && ours == theirs
    });
}
