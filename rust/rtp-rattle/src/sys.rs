//! The calls of `crates/gateway` and the records of their answers, as `include/rtp_rattle.h` declares them for C.

use crate::codecs::vp8::{Vp8Packet, Vp8Payloader};
#[cfg(test)]
use crate::header::Extensions;
use crate::header::Header;

#[repr(C)]
#[derive(Clone, Copy)]
pub struct Refused {
    pub number: u8,
    pub carried: [usize; 2],
}

#[repr(C)]
pub struct Test {
    pub refused: Refused,
    pub holds: bool,
}

/// The first fields of a `Header`, in their places.
#[repr(C)]
#[derive(Clone, Copy)]
pub struct Fixed {
    pub version: u8,
    pub padding: bool,
    pub extension: bool,
    pub marker: bool,
    pub payload_type: u8,
    pub sequence_number: u16,
    pub timestamp: u32,
    pub ssrc: u32,
}

/// A `Header` without its arrays.
#[repr(C)]
#[derive(Clone, Copy)]
pub struct Front {
    pub fixed: Fixed,
    pub csrc_count: usize,
    pub count: usize,
    pub extensions_padding: usize,
    pub extension_profile: u16,
}

impl Front {
    /// All zeros.
    pub const NONE: Front = Front {
        fixed: Fixed {
            version: 0,
            padding: false,
            extension: false,
            marker: false,
            payload_type: 0,
            sequence_number: 0,
            timestamp: 0,
            ssrc: 0,
        },
        csrc_count: 0,
        count: 0,
        extensions_padding: 0,
        extension_profile: 0,
    };

    /// Whether there are CSRCs or elements.
    #[inline]
    pub fn has_arrays(&self) -> bool {
        self.csrc_count != 0 || self.count != 0
    }
}

#[repr(C)]
pub struct Bytes {
    pub number: usize,
    pub bytes: usize,
}

#[repr(C)]
pub struct HeaderFront {
    pub number: usize,
    pub at: usize,
    pub front: Front,
}

#[repr(C)]
pub struct PacketFront {
    pub number: usize,
    pub at: usize,
    pub len: usize,
    pub front: Front,
}

#[allow(dead_code)] // of a call that only the tests make
#[repr(C)]
pub struct HeaderRead {
    pub refused: Refused,
    pub at: usize,
    pub header: Header,
}

#[allow(dead_code)] // likewise
#[repr(C)]
pub struct Length {
    pub refused: Refused,
    pub bytes: usize,
}

#[repr(C)]
pub struct HeaderChanged {
    pub refused: Refused,
    pub header: Header,
}

#[repr(C)]
pub struct Element {
    pub refused: Refused,
    pub present: bool,
    pub at: usize,
    pub len: usize,
}

#[repr(C)]
pub struct Ids {
    pub refused: Refused,
    pub count: usize,
    pub ids: [u8; 32],
}

#[allow(dead_code)] // likewise
#[repr(C)]
pub struct PacketRead {
    pub refused: Refused,
    pub at: usize,
    pub len: usize,
    pub header: Header,
}

#[repr(C)]
#[derive(Clone, Copy)]
pub struct ParameterSet {
    pub bytes: [u8; 1024],
    pub len: usize,
}

#[repr(C)]
#[derive(Clone, Copy)]
pub struct H264Payloader {
    pub sps: ParameterSet,
    pub pps: ParameterSet,
}

#[repr(C)]
pub struct H264Sent {
    pub refused: Refused,
    pub packets: usize,
    pub bytes: usize,
    pub units_dropped: usize,
    pub pairs_dropped: usize,
    pub sender: H264Payloader,
}

#[repr(C)]
#[derive(Clone, Copy)]
pub struct LentPayloader {
    pub sps_len: usize,
    pub pps_len: usize,
}

#[repr(C)]
pub struct H264LentSent {
    pub refused: Refused,
    pub packets: usize,
    pub bytes: usize,
    pub units_dropped: usize,
    pub pairs_dropped: usize,
    pub sender: LentPayloader,
}

#[repr(C)]
#[derive(Clone, Copy)]
pub struct H264Packet {
    pub is_avc: bool,
    pub gathered: usize,
}

#[repr(C)]
#[derive(Clone, Copy)]
pub struct Body {
    pub lies_in: u8,
    pub at: usize,
    pub len: usize,
}

#[repr(C)]
pub struct H264Read {
    pub refused: Refused,
    pub bytes: usize,
    pub body: Body,
    pub packet: H264Packet,
}

#[repr(C)]
pub struct Vp8Sent {
    pub refused: Refused,
    pub packets: usize,
    pub bytes: usize,
    pub payloader: Vp8Payloader,
}

#[repr(C)]
pub struct Vp8Read {
    pub refused: Refused,
    pub at: usize,
    pub packet: Vp8Packet,
}

#[repr(C)]
#[derive(Clone, Copy)]
pub struct Joiner {
    pub source: u32,
    pub awaited: u16,
    pub missed: u32,
    pub running: bool,
    pub gathered: usize,
    pub time: u32,
    pub marked: bool,
    pub closed: bool,
}

#[repr(C)]
pub struct Joined {
    pub refused: Refused,
    pub late: bool,
    pub first: u16,
    pub count: u16,
    pub bytes: usize,
}

#[repr(C)]
pub struct Closed {
    pub refused: Refused,
    pub first: u16,
    pub count: u16,
    pub joiner: Joiner,
}

/// How many bytes each record has.
#[cfg(test)]
#[repr(C)]
pub struct Sizes {
    pub refused: usize,
    pub test: usize,
    pub extensions: usize,
    pub header: usize,
    pub fixed: usize,
    pub front: usize,
    pub bytes: usize,
    pub header_front: usize,
    pub header_read: usize,
    pub length: usize,
    pub header_changed: usize,
    pub element: usize,
    pub ids: usize,
    pub packet_front: usize,
    pub packet_read: usize,
    pub parameter_set: usize,
    pub h264_payloader: usize,
    pub h264_sent: usize,
    pub h264_lent_payloader: usize,
    pub h264_lent_sent: usize,
    pub h264_packet: usize,
    pub body: usize,
    pub h264_read: usize,
    pub vp8_payloader: usize,
    pub vp8_sent: usize,
    pub vp8_packet: usize,
    pub vp8_read: usize,
    pub joiner: usize,
    pub joined: usize,
    pub closed: usize,
}

/// Calls on the parts of a header's record, which come first.
macro_rules! in_parts {
    ($(fn $call:ident($($more:ident: $type:ty),*) -> $answer:ty;)*) => {
        extern "C" {$(
            pub fn $call(
                fixed: Fixed,
                csrc_count: usize,
                csrc: *const [u32; 15],
                profile: u16,
                count: usize,
                ids: *const [u8; 32],
                lens: *const [u16; 32],
                bytes: *const [u8; 1024],
                padding: usize,
                $($more: $type),*
            ) -> $answer;
        )*}
    };
}

in_parts! {
    fn rtp_header_marshal_size_parts() -> Bytes;
    fn rtp_header_marshal_parts(buf: *mut u8, buf_len: usize) -> Bytes;
    fn rtp_header_get_extension_parts(id: u8) -> Element;
    fn rtp_header_get_extension_ids_parts() -> Ids;
    fn rtp_header_get_extension_payload_len_parts() -> Bytes;
    fn rtp_packet_marshal_size_parts(payload: *const u8, payload_len: usize) -> Bytes;
    fn rtp_packet_marshal_parts(payload: *const u8, payload_len: usize, buf: *mut u8, buf_len: usize) -> Bytes;
}

extern "C" {
    pub fn rtp_header_default() -> Header;
    #[cfg(test)]
    pub fn rtp_header_unmarshal(packet: *const u8, packet_len: usize) -> HeaderRead;
    pub fn rtp_header_unmarshal_front(packet: *const u8, packet_len: usize) -> HeaderFront;
    pub fn rtp_header_unmarshal_parts(
        packet: *const u8,
        packet_len: usize,
        csrc: *mut [u32; 15],
        ids: *mut [u8; 32],
        lens: *mut [u16; 32],
        bytes: *mut [u8; 1024],
    ) -> HeaderFront;
    #[cfg(test)]
    pub fn rtp_header_marshal_size(header: Header) -> Length;
    #[cfg(test)]
    pub fn rtp_header_marshal_to(header: Header, buf: *mut u8, buf_len: usize) -> Length;
    pub fn rtp_header_marshal_bare(
        fixed: Fixed,
        profile: u16,
        padding: usize,
        buf: *mut u8,
        buf_len: usize,
    ) -> Bytes;
    pub fn rtp_header_set_extension(
        header: Header,
        id: u8,
        payload: *const u8,
        payload_len: usize,
    ) -> HeaderChanged;
    pub fn rtp_header_del_extension(header: Header, id: u8) -> HeaderChanged;
    #[cfg(test)]
    pub fn rtp_header_get_extension(header: Header, id: u8) -> Element;
    #[cfg(test)]
    pub fn rtp_header_get_extension_ids(header: Header) -> Ids;
    #[cfg(test)]
    pub fn rtp_header_get_extension_payload_len(header: Header) -> Length;

    #[cfg(test)]
    pub fn rtp_packet_unmarshal(packet: *const u8, packet_len: usize) -> PacketRead;
    pub fn rtp_packet_unmarshal_front(packet: *const u8, packet_len: usize) -> PacketFront;
    pub fn rtp_packet_unmarshal_parts(
        packet: *const u8,
        packet_len: usize,
        csrc: *mut [u32; 15],
        ids: *mut [u8; 32],
        lens: *mut [u16; 32],
        bytes: *mut [u8; 1024],
    ) -> PacketFront;
    #[cfg(test)]
    pub fn rtp_packet_marshal_size(
        header: Header,
        payload: *const u8,
        payload_len: usize,
    ) -> Length;
    pub fn rtp_packet_marshal_bare(
        fixed: Fixed,
        profile: u16,
        padding: usize,
        payload: *const u8,
        payload_len: usize,
        buf: *mut u8,
        buf_len: usize,
    ) -> Bytes;
    #[cfg(test)]
    pub fn rtp_packet_marshal_to(
        header: Header,
        payload: *const u8,
        payload_len: usize,
        buf: *mut u8,
        buf_len: usize,
    ) -> Length;

    #[cfg(test)]
    pub fn rtp_h264_payloader_new() -> H264Payloader;
    #[cfg(test)]
    pub fn rtp_h264_payload(
        sender: H264Payloader,
        mtu: usize,
        frame: *const u8,
        frame_len: usize,
        out: *mut u8,
        out_len: usize,
        ends: *mut usize,
        ends_len: usize,
    ) -> H264Sent;
    pub fn rtp_h264_lent_payload(
        sender: LentPayloader,
        sps: *mut [u8; 1024],
        pps: *mut [u8; 1024],
        mtu: usize,
        frame: *const u8,
        frame_len: usize,
        out: *mut u8,
        out_len: usize,
        ends: *mut usize,
        ends_len: usize,
    ) -> H264LentSent;
    pub fn rtp_h264_depacketize(
        packet: H264Packet,
        payload: *const u8,
        payload_len: usize,
        gather: *mut u8,
        gather_len: usize,
        out: *mut u8,
        out_len: usize,
    ) -> H264Read;
    pub fn rtp_h264_is_partition_head(payload: *const u8, payload_len: usize) -> Test;
    pub fn rtp_h264_is_partition_tail(marker: bool) -> bool;

    pub fn rtp_vp8_payload(
        payloader: Vp8Payloader,
        mtu: usize,
        frame: *const u8,
        frame_len: usize,
        out: *mut u8,
        out_len: usize,
        ends: *mut usize,
        ends_len: usize,
    ) -> Vp8Sent;
    pub fn rtp_vp8_depacketize(
        packet: Vp8Packet,
        payload: *const u8,
        payload_len: usize,
    ) -> Vp8Read;
    pub fn rtp_vp8_is_partition_head(payload: *const u8, payload_len: usize) -> Test;
    pub fn rtp_vp8_is_partition_tail(marker: bool) -> bool;

    pub fn rtp_joiner_open(ssrc: u32, first: u16) -> Joiner;
    pub fn rtp_joiner_join(
        joiner: *mut Joiner,
        packet: *const u8,
        packet_len: usize,
        gather: *mut u8,
        gather_len: usize,
        out: *mut u8,
        out_len: usize,
    ) -> Joined;
    pub fn rtp_joiner_close(joiner: Joiner, number: u16) -> Closed;

    #[cfg(test)]
    pub fn rtp_sizes() -> Sizes;
}

#[cfg(test)]
mod tests {
    use super::*;

    /// The calls that are linked were compiled with records of these sizes.
    #[test]
    fn sizes() {
        // SAFETY: the call takes nothing.
        let s = unsafe { rtp_sizes() };
        assert_eq!(s.refused, size_of::<Refused>());
        assert_eq!(s.test, size_of::<Test>());
        assert_eq!(s.extensions, size_of::<Extensions>());
        assert_eq!(s.header, size_of::<Header>());
        assert_eq!(s.fixed, size_of::<Fixed>());
        assert_eq!(s.front, size_of::<Front>());
        assert_eq!(s.bytes, size_of::<Bytes>());
        assert_eq!(s.header_front, size_of::<HeaderFront>());
        assert_eq!(s.header_read, size_of::<HeaderRead>());
        assert_eq!(s.length, size_of::<Length>());
        assert_eq!(s.header_changed, size_of::<HeaderChanged>());
        assert_eq!(s.element, size_of::<Element>());
        assert_eq!(s.ids, size_of::<Ids>());
        assert_eq!(s.packet_front, size_of::<PacketFront>());
        assert_eq!(s.packet_read, size_of::<PacketRead>());
        assert_eq!(s.parameter_set, size_of::<ParameterSet>());
        assert_eq!(s.h264_payloader, size_of::<H264Payloader>());
        assert_eq!(s.h264_sent, size_of::<H264Sent>());
        assert_eq!(s.h264_lent_payloader, size_of::<LentPayloader>());
        assert_eq!(s.h264_lent_sent, size_of::<H264LentSent>());
        assert_eq!(s.h264_packet, size_of::<H264Packet>());
        assert_eq!(s.body, size_of::<Body>());
        assert_eq!(s.h264_read, size_of::<H264Read>());
        assert_eq!(s.vp8_payloader, size_of::<Vp8Payloader>());
        assert_eq!(s.vp8_sent, size_of::<Vp8Sent>());
        assert_eq!(s.vp8_packet, size_of::<Vp8Packet>());
        assert_eq!(s.vp8_read, size_of::<Vp8Read>());
        assert_eq!(s.joiner, size_of::<Joiner>());
        assert_eq!(s.joined, size_of::<Joined>());
        assert_eq!(s.closed, size_of::<Closed>());
    }

    const X: &[u8] =
        b"\x90\x60\x00\x01\x00\x00\x00\x02\x00\x00\x00\x03\xBE\xDE\x00\x01\x10\xAA\x00\x00";

    /// A plain unit, as source 3 sends it with the number 1.
    const PLAIN: &[u8] = b"\x80\x60\x00\x01\x00\x00\x00\x02\x00\x00\x00\x03\x65\x01\x02";

    /// A packet through the linked call.
    fn join(joiner: &mut Joiner, packet: &[u8], gather: &mut [u8], out: &mut [u8]) -> Joined {
        let (gather_len, out_len) = (gather.len(), out.len());
        let (gather, out) = (gather.as_mut_ptr(), out.as_mut_ptr());
        // SAFETY: the record and the slices are lent for the call, and those that are written overlap nothing.
        unsafe {
            rtp_joiner_join(joiner, packet.as_ptr(), packet.len(), gather, gather_len, out, out_len)
        }
    }

    /// What the linked calls write last in each record stands in its last field.
    #[test]
    fn last_fields() {
        let (mut gather, mut out, mut ends) = ([0; 64], [0; 64], [0; 8]);
        // SAFETY: each slice is lent for its call, and those that are written overlap nothing.
        unsafe {
            let read = rtp_header_unmarshal(X.as_ptr(), X.len());
            assert_eq!(read.header.extensions_padding, 2);
            assert_eq!(rtp_packet_unmarshal(X.as_ptr(), X.len()).header.extensions_padding, 2);
            assert_eq!(rtp_header_marshal_size(read.header).bytes, 20);
            assert_eq!(rtp_header_get_extension(read.header, 1).len, 1);
            let bytes = [0xAB; 32];
            let mut header = rtp_header_default();
            for id in 1..=32 {
                header = rtp_header_set_extension(header, id, bytes.as_ptr(), 32).header;
            }
            assert_eq!(header.extensions.bytes[1023], 0xAB);
            assert_eq!(rtp_header_get_extension_ids(header).ids[31], 32);

            let sets = b"\x00\x00\x01\x68\xBB\xBB";
            let sender = rtp_h264_payloader_new();
            let sent = rtp_h264_payload(
                sender,
                100,
                sets.as_ptr(),
                sets.len(),
                out.as_mut_ptr(),
                64,
                ends.as_mut_ptr(),
                8,
            );
            assert_eq!(sent.sender.pps.len, 3);
            let (mut sps, mut pps) = ([0; 1024], [0; 1024]);
            let sent = rtp_h264_lent_payload(
                LentPayloader { sps_len: 0, pps_len: 0 },
                &mut sps,
                &mut pps,
                100,
                sets.as_ptr(),
                sets.len(),
                out.as_mut_ptr(),
                64,
                ends.as_mut_ptr(),
                8,
            );
            assert_eq!(sent.sender.pps_len, 3);
            let reader = H264Packet { is_avc: false, gathered: 0 };
            let mut read = |payload: &[u8]| {
                rtp_h264_depacketize(
                    reader,
                    payload.as_ptr(),
                    payload.len(),
                    gather.as_mut_ptr(),
                    64,
                    out.as_mut_ptr(),
                    64,
                )
            };
            assert_eq!(read(b"\x7C\x85\x01\x02").packet.gathered, 2);
            assert_eq!(read(b"\x65\x01\x02").body.len, 2);
            assert_eq!(read(b"\x18\x00\x05\x41").refused.carried, [5, 1]);
            assert!(rtp_h264_is_partition_head(b"\x65\x01".as_ptr(), 2).holds);

            let sent = rtp_vp8_payload(
                Vp8Payloader { enable_picture_id: true, picture_id: 5 },
                100,
                X.as_ptr(),
                X.len(),
                out.as_mut_ptr(),
                64,
                ends.as_mut_ptr(),
                8,
            );
            assert_eq!(sent.payloader.picture_id, 6);
            let read = rtp_vp8_depacketize(Vp8Packet::default(), b"\x90\x10\x1F\xAA".as_ptr(), 4);
            assert_eq!(read.packet.key_idx, 31);

            let mut joiner = rtp_joiner_open(3, 1);
            let joined = join(&mut joiner, PLAIN, &mut gather, &mut out);
            assert_eq!((joined.bytes, joiner.awaited), (7, 2));
            assert!(rtp_joiner_close(joiner, 2).joiner.closed);
        }
    }

    /// What a record says of its run.
    fn run(joiner: &Joiner) -> (bool, usize, bool, u32) {
        (joiner.running, joiner.gathered, joiner.marked, joiner.time)
    }

    const NO_RUN: (bool, usize, bool, u32) = (false, 0, false, 0);

    /// A length, a mark or a time where no run is open: 8, behind 22, and nothing is changed. Beside an open run it is taken.
    fn without_a_run(gathered: usize, marked: bool, time: u32) {
        let (mut gather, mut out) = ([0xEE; 64], [0xEE; 64]);
        // SAFETY: the call takes no slice.
        let open = unsafe { rtp_joiner_open(3, 1) };
        assert_eq!(run(&open), NO_RUN);
        for (running, closed, number) in
            [(false, false, 8), (false, true, 22), (true, true, 22), (true, false, 0)]
        {
            let record = Joiner { running, gathered, marked, time, closed, ..open };
            // SAFETY: the record goes by value.
            let shut = unsafe { rtp_joiner_close(record, 1) };
            assert_eq!(shut.refused.number, number);
            let mut after = record;
            assert_eq!(join(&mut after, PLAIN, &mut gather, &mut out).refused.number, number);
            if number == 0 {
                assert_eq!((run(&shut.joiner), run(&after)), (NO_RUN, NO_RUN));
                continue;
            }
            for left in [shut.joiner, after] {
                assert_eq!(run(&left), run(&record));
                assert_eq!((left.awaited, left.closed), (1, closed));
            }
            assert_eq!((gather, out), ([0xEE; 64], [0xEE; 64]));
        }
    }

    #[test]
    fn length_without_a_run() {
        without_a_run(2, false, 0);
    }

    #[test]
    fn mark_without_a_run() {
        without_a_run(0, true, 0);
        without_a_run(2, true, 0);
    }

    #[test]
    fn time_without_a_run() {
        for time in [1, 1 << 31, u32::MAX] {
            without_a_run(0, false, time);
        }
        without_a_run(2, true, 2);
    }

    /// H with this number and time, and a payload.
    fn packet(number: u16, time: u32, payload: &[u8]) -> Vec<u8> {
        let (number, time) = (number.to_be_bytes(), time.to_be_bytes());
        [&PLAIN[..2], &number, &time, &PLAIN[8..12], payload].concat()
    }

    /// A joiner with a run that a start fragment opened.
    fn opened(first: u8, time: u32, gather: &mut [u8]) -> Joiner {
        // SAFETY: the call takes no slice.
        let mut joiner = unsafe { rtp_joiner_open(3, 1) };
        let start = packet(1, time, &[first, 0x85, 1, 2]);
        assert_eq!(join(&mut joiner, &start, gather, &mut []).refused.number, 0);
        joiner
    }

    const TIMES: [u32; 5] = [0, 1, 2, 1 << 31, u32::MAX];

    /// A start fragment opens the run, with its mark and its time, and closing drops them with it.
    #[test]
    fn open_run() {
        for (first, marked) in [(0x7C, false), (0xFC, true)] {
            for time in TIMES {
                let joiner = opened(first, time, &mut [0xEE; 64]);
                assert_eq!(run(&joiner), (true, 2, marked, time));
                // SAFETY: the record goes by value.
                let shut = unsafe { rtp_joiner_close(joiner, 2) };
                assert_eq!(run(&shut.joiner), NO_RUN);
            }
        }
    }

    /// E4: "A continuation that follows without a gap but carries another timestamp is refused and changes nothing."
    #[test]
    fn fragment_of_another_time() {
        for (time, other) in TIMES.into_iter().flat_map(|t| TIMES.map(|o| (t, o))) {
            if time == other {
                continue;
            }
            let (mut gather, mut out) = ([0xEE; 64], [0xEE; 64]);
            let mut joiner = opened(0x7C, time, &mut gather);
            for payload in [&b"\x7C\x05\x03"[..], b"\x7C\x45\x03", b"\xFC\x05\x03"] {
                let joined = join(&mut joiner, &packet(2, other, payload), &mut gather, &mut out);
                assert_eq!((joined.refused.number, joined.refused.carried), (25, [0, 0]));
                assert_eq!(
                    (joined.late, joined.first, joined.count, joined.bytes),
                    (false, 0, 0, 0)
                );
                assert_eq!(run(&joiner), (true, 2, false, time));
                assert_eq!((joiner.source, joiner.awaited, joiner.missed), (3, 2, 0));
                assert_eq!((&gather[..2], gather[2], out), (&[1, 2][..], 0xEE, [0xEE; 64]));
            }
            let end = packet(2, time, b"\x7C\x45\x03");
            assert_eq!(join(&mut joiner, &end, &mut gather, &mut out).bytes, 8);
            assert_eq!((&out[4..8], run(&joiner)), (&[0x65, 1, 2, 3][..], NO_RUN));
        }
    }
}
