//! The two calls that send H.264 frames, with the parameter sets in a record and in lent buffers, over the same frames: they answer the same,
//! write the same, and save the same sets.

use crate::sys;

/// Numbers that follow from a seed (splitmix64).
pub(crate) struct Row(pub u64);

impl Row {
    pub(crate) fn below(&mut self, n: usize) -> usize {
        self.0 = self.0.wrapping_add(0x9E37_79B9_7F4A_7C15);
        let mut x = self.0;
        x = (x ^ (x >> 30)).wrapping_mul(0xBF58_476D_1CE4_E5B9);
        x = (x ^ (x >> 27)).wrapping_mul(0x94D0_49BB_1331_11EB);
        ((x ^ (x >> 31)) % n as u64) as usize
    }

    /// Up to six units, parameter sets among them, some as long as a set can be or longer. Where bytes are small there are more start
    /// codes in them.
    fn frame(&mut self) -> Vec<u8> {
        let mut frame = Vec::new();
        for _ in 0..self.below(7) {
            frame.extend_from_slice([&b"\x00\x00\x01"[..], b"\x00\x00\x00\x01"][self.below(2)]);
            frame.push([0x67, 0x68, 0x65, 0x41, 0x09, 0x0C][self.below(6)]);
            let len = if self.below(12) == 0 { 1020 + self.below(6) } else { self.below(24) };
            let most = [3, 256, 256][self.below(3)];
            frame.extend((0..len).map(|_| self.below(most) as u8));
        }
        frame
    }

    fn mtu(&mut self) -> usize {
        match self.below(16) {
            0 => 65535 + self.below(2),
            1..=4 => 1200,
            _ => self.below(48),
        }
    }

    /// Room for `all`, or for less.
    fn room(&mut self, all: usize) -> usize {
        [self.below(24), all, all, all][self.below(4)]
    }
}

/// A sender of either kind, with what is saved in it.
struct Both {
    record: sys::H264Payloader,
    lens: sys::LentPayloader,
    sps: [u8; 1024],
    pps: [u8; 1024],
}

impl Both {
    fn new() -> Self {
        Both {
            // SAFETY: the call takes nothing.
            record: unsafe { sys::rtp_h264_payloader_new() },
            lens: sys::LentPayloader { sps_len: 0, pps_len: 0 },
            sps: [0xA7; 1024],
            pps: [0xA7; 1024],
        }
    }

    fn by_value(
        &self,
        mtu: usize,
        frame: &[u8],
        out: &mut [u8],
        ends: &mut [usize],
    ) -> sys::H264Sent {
        let (room, rows) = (out.len(), ends.len());
        let (out, ends) = (out.as_mut_ptr(), ends.as_mut_ptr());
        // SAFETY: the slices are lent for the call, and those that are written overlap nothing.
        unsafe {
            sys::rtp_h264_payload(
                self.record,
                mtu,
                frame.as_ptr(),
                frame.len(),
                out,
                room,
                ends,
                rows,
            )
        }
    }

    fn lent(
        &mut self,
        mtu: usize,
        frame: &[u8],
        out: &mut [u8],
        ends: &mut [usize],
    ) -> sys::H264LentSent {
        let (room, rows) = (out.len(), ends.len());
        let (out, ends) = (out.as_mut_ptr(), ends.as_mut_ptr());
        let (sps, pps) = (&mut self.sps, &mut self.pps);
        // SAFETY: the slices and the sets' buffers are lent for the call, and those that are written overlap nothing.
        unsafe {
            sys::rtp_h264_lent_payload(
                self.lens,
                sps,
                pps,
                mtu,
                frame.as_ptr(),
                frame.len(),
                out,
                room,
                ends,
                rows,
            )
        }
    }

    /// Both calls on a frame, compared; which refusal they answer, 0 for none.
    fn send(&mut self, mtu: usize, frame: &[u8], room: usize, rows: usize) -> u8 {
        let (mut out, mut ends) = (vec![0xEE; room], vec![9; rows]);
        let (mut out_lent, mut ends_lent) = (out.clone(), ends.clone());
        let before = [self.sps, self.pps];
        let sent = self.by_value(mtu, frame, &mut out, &mut ends);
        let lent = self.lent(mtu, frame, &mut out_lent, &mut ends_lent);
        assert_eq!(lent.refused.number, sent.refused.number);
        assert_eq!(lent.refused.carried, sent.refused.carried);
        assert_eq!((lent.packets, lent.bytes), (sent.packets, sent.bytes));
        assert_eq!(
            (lent.units_dropped, lent.pairs_dropped),
            (sent.units_dropped, sent.pairs_dropped)
        );
        assert_eq!((out_lent, ends_lent), (out, ends));

        (self.record, self.lens) = (sent.sender, lent.sender);
        let sets = [self.record.sps, self.record.pps];
        assert_eq!([self.lens.sps_len, self.lens.pps_len], sets.map(|set| set.len));
        for ((after, before), set) in [self.sps, self.pps].into_iter().zip(before).zip(sets) {
            let new = if lent.refused.number == 0 { set.len } else { 0 };
            assert_eq!(after[..new], set.bytes[..new]);
            assert_eq!(after[new..], before[new..]);
        }
        lent.refused.number
    }

    /// With a length that no record has: both refuse, and the sender is as it was again.
    fn send_outside(&mut self, frame: &[u8]) {
        let lens = self.lens;
        self.record.sps.len = 1025;
        self.lens.sps_len = 1025;
        assert_eq!(self.send(1200, frame, 64, 8), 8);
        self.record.sps.len = lens.sps_len;
        self.lens = lens;
    }
}

#[test]
fn by_value_and_lent() {
    let (mut refused, mut waiting) = ([0; 25], 0);
    for seed in 0..400 {
        let mut row = Row(seed);
        let mut both = Both::new();
        for _ in 0..8 {
            let frame = row.frame();
            let (mtu, room, rows) = (row.mtu(), row.room(1 << 16), row.room(1 << 13));
            refused[both.send(mtu, &frame, room, rows) as usize] += 1;
            waiting += usize::from(both.lens.sps_len + both.lens.pps_len > 0);
        }
        both.send_outside(&row.frame());
    }
    // the frames reach each answer that there is
    assert!(
        waiting > 100 && [0, 5, 7, 8].iter().all(|&number| refused[number] > 50),
        "{refused:?}"
    );
}
