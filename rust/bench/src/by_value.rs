//! The C calls that take a record by value, or hand one back. rtp-rattle calls those that are lent its arrays.

use rtp_rattle::header::Header;
use rtp_rattle::packet::Packet;

/// A parameter set that waits.
#[repr(C)]
#[derive(Clone, Copy)]
struct ParameterSet {
    bytes: [u8; 1024],
    len: usize,
}

/// `struct rtp_h264_payloader` of crates/gateway/include/rtp_rattle.h.
#[repr(C)]
#[derive(Clone, Copy)]
pub struct Sender {
    sps: ParameterSet,
    pps: ParameterSet,
}

#[allow(dead_code)]
#[repr(C)]
struct Refused {
    number: u8,
    carried: [usize; 2],
}

/// `struct rtp_h264_sent`.
#[allow(dead_code)]
#[repr(C)]
struct Sent {
    refused: Refused,
    packets: usize,
    bytes: usize,
    units_dropped: usize,
    pairs_dropped: usize,
    sender: Sender,
}

/// `struct rtp_header_read`.
#[allow(dead_code)]
#[repr(C)]
pub struct HeaderRead {
    refused: Refused,
    at: usize,
    header: Header,
}

/// `struct rtp_packet_read`.
#[allow(dead_code)]
#[repr(C)]
pub struct PacketRead {
    refused: Refused,
    at: usize,
    len: usize,
    header: Header,
}

/// `struct rtp_length`.
#[repr(C)]
struct Length {
    refused: Refused,
    bytes: usize,
}

extern "C" {
    fn rtp_header_unmarshal(packet: *const u8, packet_len: usize) -> HeaderRead;
    fn rtp_header_marshal_to(header: Header, buf: *mut u8, buf_len: usize) -> Length;
    fn rtp_packet_unmarshal(packet: *const u8, packet_len: usize) -> PacketRead;
    fn rtp_packet_marshal_to(
        header: Header,
        payload: *const u8,
        payload_len: usize,
        buf: *mut u8,
        buf_len: usize,
    ) -> Length;
    fn rtp_h264_payload(
        sender: Sender,
        mtu: usize,
        frame: *const u8,
        frame_len: usize,
        out: *mut u8,
        out_len: usize,
        ends: *mut usize,
        ends_len: usize,
    ) -> Sent;
}

impl Sender {
    /// A sender with nothing saved.
    pub fn new() -> Self {
        let none = ParameterSet { bytes: [0; 1024], len: 0 };
        Sender { sps: none, pps: none }
    }

    /// How many packets a frame has.
    pub fn payload(
        &mut self,
        mtu: usize,
        frame: &[u8],
        out: &mut [u8],
        ends: &mut [usize],
    ) -> usize {
        let (room, rows) = (out.len(), ends.len());
        let (out, ends) = (out.as_mut_ptr(), ends.as_mut_ptr());
        // SAFETY: the slices are lent for the call, and those that are written overlap nothing.
        let sent = unsafe {
            rtp_h264_payload(*self, mtu, frame.as_ptr(), frame.len(), out, room, ends, rows)
        };
        assert_eq!(sent.refused.number, 0, "room");
        *self = sent.sender;
        sent.packets
    }
}

pub fn header_read(bytes: &[u8]) -> HeaderRead {
    // SAFETY: the slice is lent for the call.
    let read = unsafe { rtp_header_unmarshal(bytes.as_ptr(), bytes.len()) };
    assert_eq!(read.refused.number, 0, "a header");
    read
}

pub fn packet_read(bytes: &[u8]) -> PacketRead {
    // SAFETY: the slice is lent for the call.
    let read = unsafe { rtp_packet_unmarshal(bytes.as_ptr(), bytes.len()) };
    assert_eq!(read.refused.number, 0, "a packet");
    read
}

pub fn header_write(header: &Header, buf: &mut [u8]) -> usize {
    // SAFETY: the buffer is lent for the call.
    let written = unsafe { rtp_header_marshal_to(*header, buf.as_mut_ptr(), buf.len()) };
    assert_eq!(written.refused.number, 0, "room");
    written.bytes
}

pub fn packet_write(packet: &Packet, buf: &mut [u8]) -> usize {
    let (payload, len) = (packet.payload.as_ptr(), packet.payload.len());
    // SAFETY: both slices are lent for the call, and the buffer overlaps nothing.
    let written =
        unsafe { rtp_packet_marshal_to(packet.header, payload, len, buf.as_mut_ptr(), buf.len()) };
    assert_eq!(written.refused.number, 0, "room");
    written.bytes
}
