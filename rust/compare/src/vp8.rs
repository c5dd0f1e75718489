//! The VP8 calls.

use bytes::Bytes;
use oracle::packetizer::{Depacketizer, Payloader};
use oracle::vp8::{Vp8Packet, Vp8Payloader};
use rtp_rattle::codecs::vp8::{Vp8Packet as OurPacket, Vp8Payloader as OurPayloader};
use rtp_rattle::Error;

use crate::lent::Lent;
use crate::limits;
use crate::random::Random;
use crate::show::Hex;
use crate::tally::Tally;
use crate::verdict::{Case, Theirs};

/// The packets, or none where the frame was refused. The sender changes as the Rust's, or not at all.
pub fn payload(
    tally: &mut Tally,
    random: &mut Random,
    sender: &mut OurPayloader,
    mtu: usize,
    frame: &Bytes,
) -> Vec<Bytes> {
    let old = *sender;
    let mut next = Vp8Payloader::at(old.enable_picture_id, old.picture_id);
    let theirs = Theirs::of(|| next.payload(mtu, frame));
    let packets = theirs.answer().cloned().unwrap_or_default();
    let mut lent = Lent::around(random, &packets);
    let answer = sender
        .payload(mtu, frame, &mut lent.out, &mut lent.ends)
        .map(|payloads| payloads.map(<[u8]>::to_vec).collect::<Vec<_>>());
    let case = Case {
        before: limits::frame(frame, mtu).or_else(|| limits::picture_id(old.picture_id)),
        after: limits::sent(&packets, lent.room()),
        ..Case::new("vp8 payload", (old, mtu, Hex(frame), lent.room()))
    };
    let kept = lent.kept_behind(0, 0) && *sender == old;
    case.judge(tally, &answer, &theirs, kept, |ours, theirs| {
        ours == theirs
            && lent.holds(theirs)
            && sender.enable_picture_id == next.enable_picture_id
            && sender.picture_id == next.picture_id()
    });
    answer.map_or(vec![], |_| packets)
}

/// The fields change as the Rust's, where it answers and where it refuses by 4; else they are kept.
pub fn depacketize(tally: &mut Tally, reader: &mut OurPacket, packet: &Bytes) {
    let old = *reader;
    let mut next = theirs_of(&old);
    let theirs = Theirs::of(|| next.depacketize(packet));
    let answer = reader.depacketize(packet);
    let case = Case {
        before: limits::packet(packet).or_else(|| limits::picture_id(old.picture_id)),
        ..Case::new("vp8 depacketize", (old, Hex(packet)))
    };
    let kept = match answer {
        Err(Error::ErrShortPacket) => theirs_of(reader) == next,
        _ => *reader == old,
    };
    case.judge(tally, &answer, &theirs, kept, |ours, theirs| {
        **ours == theirs[..] && theirs_of(reader) == next
    });
}

fn theirs_of(fields: &OurPacket) -> Vp8Packet {
    let OurPacket { x, n, s, pid, i, l, t, k, picture_id, tl0_pic_idx, tid, y, key_idx } = *fields;
    Vp8Packet { x, n, s, pid, i, l, t, k, picture_id, tl0_pic_idx, tid, y, key_idx }
}

pub fn partitions(tally: &mut Tally, packet: &Bytes, marker: bool) {
    let theirs = Theirs::sure(|| Vp8Packet::default().is_partition_head(packet));
    let answer = OurPacket::is_partition_head(packet);
    let case =
        Case { before: limits::packet(packet), ..Case::new("vp8 is_partition_head", Hex(packet)) };
    case.judge(tally, &answer, &theirs, true, |ours, theirs| ours == theirs);
    let theirs = Theirs::sure(|| Vp8Packet::default().is_partition_tail(marker, packet));
    let answer = Ok(OurPacket::is_partition_tail(marker));
    let case = Case::new("vp8 is_partition_tail", marker);
    case.judge(tally, &answer, &theirs, true, |ours, theirs| ours == theirs);
}
