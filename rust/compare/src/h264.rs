//! The H.264 calls.

use bytes::Bytes;
use oracle::h264::{H264Packet, H264Payloader};
use oracle::outcomes::{self, Drops};
use oracle::packetizer::Depacketizer;
use rtp_rattle::codecs::h264::{H264Packet as OurPacket, H264Payloader as OurPayloader};

use crate::lent::Lent;
use crate::limits;
use crate::random::Random;
use crate::show::Hex;
use crate::tally::Tally;
use crate::verdict::{Case, Theirs};

/// A sender in both forms.
#[derive(Default)]
pub struct Sender {
    ours: OurPayloader,
    theirs: H264Payloader,
}

impl Sender {
    /// The packets, or none where the frame was refused. Both senders change, or neither.
    pub fn payload(
        &mut self,
        tally: &mut Tally,
        random: &mut Random,
        mtu: usize,
        frame: &Bytes,
    ) -> Vec<Bytes> {
        let mut next = self.theirs.clone();
        let theirs = Theirs::of(|| outcomes::send(&mut next, mtu, frame));
        let packets = theirs.answer().map_or(vec![], |sent| sent.packets.clone());
        let mut lent = Lent::around(random, &packets);
        let mut changed = self.ours.clone();
        let answer = changed.payload(mtu, frame, &mut lent.out, &mut lent.ends).map(|sent| {
            let drops = Drops { units: sent.units_dropped(), pairs: sent.pairs_dropped() };
            (sent.map(<[u8]>::to_vec).collect::<Vec<_>>(), drops)
        });
        let case = Case {
            before: limits::sending(frame, mtu),
            after: limits::sent(&packets, lent.room()),
            ..Case::new("h264 payload", (&self.theirs, mtu, Hex(frame), lent.room()))
        };
        let kept = lent.kept_behind(0, 0) && saved(&changed) == saved(&self.ours);
        let (sps, pps) = next.clone().held();
        case.judge(tally, &answer, &theirs, kept, |(ours, drops), theirs| {
            *ours == theirs.packets
                && *drops == theirs.drops()
                && lent.holds(&theirs.packets)
                && saved(&changed) == [&sps[..], &pps]
        });
        if answer.is_err() {
            return vec![];
        }
        *self = Sender { ours: changed, theirs: next };
        packets
    }
}

fn saved(sender: &OurPayloader) -> [&[u8]; 2] {
    [sender.sps_nalu(), sender.pps_nalu()]
}

/// A reader in both forms.
pub struct Reader {
    ours: OurPacket,
    theirs: H264Packet,
    room: usize,
}

impl Reader {
    pub fn new(is_avc: bool, room: usize) -> Self {
        let theirs = H264Packet::gathering(is_avc, Bytes::new());
        Reader { ours: OurPacket::new(is_avc, room), theirs, room }
    }

    /// Both readers change, or neither.
    pub fn depacketize(&mut self, tally: &mut Tally, random: &mut Random, packet: &Bytes) {
        let mut next = self.theirs.clone();
        let theirs = Theirs::of(|| next.depacketize(packet));
        let need = theirs.answer().map_or(0, |units| units.len());
        let len = random.pick(&[need + 5, need + 5, need + 5, need, need.saturating_sub(1), 0]);
        let mut out = vec![0xA7; len];
        let run = self.ours.gathered().to_vec();
        let answer = self.ours.depacketize(packet, &mut out).map(<[u8]>::to_vec);
        let after = theirs.answer().and_then(|units| {
            limits::gathered(&run, packet, self.room).or_else(|| limits::handed_out(units, len))
        });
        let case = Case {
            before: limits::packet(packet),
            panic: Some(limits::SIZE_CUT),
            after,
            ..Case::new("h264 depacketize", (&self.theirs, self.room, Hex(packet), len))
        };
        let untouched = |from: usize| out[from..].iter().all(|byte| *byte == 0xA7);
        let body = self.ours.body(packet);
        let kept = untouched(0) && self.ours.gathered() == run && body.is_empty();
        case.judge(tally, &answer, &theirs, kept, |ours, theirs| {
            ours == theirs
                && untouched(theirs.len())
                && self.ours.gathered() == next.clone().gathered()
                && body == body_of(packet, theirs)
        });
        if answer.is_ok() {
            self.theirs = next;
        }
    }
}

/// The body of a unit that stands alone in what the Rust handed out: all behind prefix and first byte.
fn body_of<'a>(packet: &[u8], units: &'a [u8]) -> &'a [u8] {
    match packet[0] & 31 {
        24 => &[],
        _ => units.get(5..).unwrap_or(&[]),
    }
}

pub fn partitions(tally: &mut Tally, packet: &Bytes, marker: bool) {
    let theirs = Theirs::sure(|| H264Packet::default().is_partition_head(packet));
    let answer = OurPacket::is_partition_head(packet);
    let case =
        Case { before: limits::packet(packet), ..Case::new("h264 is_partition_head", Hex(packet)) };
    case.judge(tally, &answer, &theirs, true, |ours, theirs| ours == theirs);
    let theirs = Theirs::sure(|| H264Packet::default().is_partition_tail(marker, packet));
    let answer = Ok(OurPacket::is_partition_tail(marker));
    let case = Case::new("h264 is_partition_tail", marker);
    case.judge(tally, &answer, &theirs, true, |ours, theirs| ours == theirs);
}
