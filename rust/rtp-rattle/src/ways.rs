//! Every way in: a header's record by value, in parts, in place, and without its arrays. All read, write and refuse the same.

use crate::header::{parts, Extensions, Header};
use crate::packet::Packet;
use crate::senders::Row;
use crate::sys;

/// A packet with CSRCs, elements or padding; some damaged, some cut.
fn packet(row: &mut Row) -> Vec<u8> {
    let cc = [0, 0, 0, 1, 3, 15][row.below(6)];
    let bits = [0, 0x10, 0x10, 0x20, 0x30][row.below(5)];
    let mut packet = vec![0x80 | bits | cc as u8];
    packet.extend((0..11 + 4 * cc).map(|_| row.below(256) as u8));
    if bits & 0x10 != 0 {
        block(row, &mut packet);
    }
    packet.extend((0..row.below(12)).map(|_| row.below(6) as u8));
    match row.below(4) {
        0 => packet.truncate(row.below(packet.len() + 1)),
        1 => {
            let at = row.below(packet.len());
            packet[at] = row.below(256) as u8;
        }
        _ => {}
    }
    packet
}

/// An extension block, now and then one of more elements than a record holds.
fn block(row: &mut Row, packet: &mut Vec<u8>) {
    let profile = [0xBEDE_u16, 0xBEDE, 0x1000, 0x1234][row.below(4)];
    let full = row.below(8) == 0;
    let words = if full { 17 + row.below(300) } else { row.below(7) };
    packet.extend(profile.to_be_bytes());
    packet.extend((words as u16).to_be_bytes());
    for _ in 0..words {
        let word =
            [[0x10, 7, 0x21, 8], [1, 2, 9, 9], [0, 0, 0, 0], [0x33, 1, 2, 3], [0xF0, 1, 2, 3]];
        packet.extend(if full { word[0] } else { word[row.below(5)] });
    }
}

/// What stands in a record before it is read into.
fn other(row: &mut Row) -> Header {
    let mut header =
        Header { version: 3, csrc_count: 4, extensions_padding: 5, ..Header::default() };
    header.csrc.fill(row.below(1 << 30) as u32);
    header.extensions = Extensions { count: 2, ids: [9; 32], lens: [8; 32], bytes: [7; 1024] };
    header
}

/// The record's arrays, lent to the call for headers, or for packets.
macro_rules! lend {
    ($call:ident, $packet:expr, $header:expr) => {{
        let (packet, header): (&[u8], &mut Header) = ($packet, $header);
        let lists = &mut header.extensions;
        // SAFETY: the slice and the arrays are lent for the call, and overlap nothing.
        unsafe {
            sys::$call(
                packet.as_ptr(),
                packet.len(),
                &mut header.csrc,
                &mut lists.ids,
                &mut lists.lens,
                &mut lists.bytes,
            )
        }
    }};
}

/// A header read in every way; which refusal it is, 0 for none.
fn header_read(row: &mut Row, packet: &[u8]) -> u8 {
    // SAFETY: the slice is lent for the calls.
    let (by_value, front) = unsafe {
        let (at, len) = (packet.as_ptr(), packet.len());
        (sys::rtp_header_unmarshal(at, len), sys::rtp_header_unmarshal_front(at, len))
    };
    let answer = by_value.refused.check().map(|()| (by_value.header, by_value.at));
    assert_eq!((front.number, front.at), (by_value.refused.number.into(), by_value.at));
    let mut stored = Header::default();
    stored.store(&front.front);
    assert_eq!(stored.fixed_fields(), by_value.header.fixed_fields());
    assert_eq!(Header::unmarshal(packet), answer);

    let before = other(row);
    let mut into = before;
    assert_eq!(into.unmarshal_into(packet), answer.map(|(_, at)| at));
    assert_eq!(into, answer.map_or(before, |(header, _)| header));
    let mut lent = before;
    let parts = lend!(rtp_header_unmarshal_parts, packet, &mut lent);
    assert_eq!((parts.number, parts.at), (front.number, front.at));
    if parts.number == 0 {
        lent.store(&parts.front);
    }
    assert_eq!(lent, into);
    by_value.refused.number
}

/// The same for a packet.
fn packet_read(row: &mut Row, packet: &[u8]) -> u8 {
    // SAFETY: the slice is lent for the calls.
    let (by_value, front) = unsafe {
        let (at, len) = (packet.as_ptr(), packet.len());
        (sys::rtp_packet_unmarshal(at, len), sys::rtp_packet_unmarshal_front(at, len))
    };
    let payload = &packet[by_value.at..by_value.at + by_value.len];
    let answer = by_value.refused.check().map(|()| Packet { header: by_value.header, payload });
    assert_eq!(front.number, by_value.refused.number.into());
    assert_eq!((front.at, front.len), (by_value.at, by_value.len));
    let mut stored = Header::default();
    stored.store(&front.front);
    assert_eq!(stored.fixed_fields(), by_value.header.fixed_fields());
    assert_eq!(Packet::unmarshal(packet), answer);

    let before = Packet { header: other(row), payload: b"before" };
    let mut into = before;
    assert_eq!(into.unmarshal_into(packet), answer.map(|_| ()));
    assert_eq!(into, answer.unwrap_or(before));
    let mut lent = before.header;
    let parts = lend!(rtp_packet_unmarshal_parts, packet, &mut lent);
    assert_eq!((parts.number, parts.at, parts.len), (front.number, front.at, front.len));
    if parts.number == 0 {
        lent.store(&parts.front);
    }
    assert_eq!(lent, into.header);
    by_value.refused.number
}

impl Header {
    /// All but the arrays.
    fn fixed_fields(&self) -> Header {
        let count = self.extensions.count;
        let extensions = Extensions { count, ..Header::default().extensions };
        Header { csrc: [0; 15], extensions, ..*self }
    }
}

/// A record: one that was read, changed here and there, at times beyond what can be written.
fn record(row: &mut Row) -> Header {
    let mut header = Header::default();
    for _ in 0..20 {
        if header.unmarshal_into(&packet(row)).is_ok() {
            break;
        }
    }
    match row.below(12) {
        0 => header.version = 4,
        1 => header.payload_type = 128,
        2 => header.extensions_padding = 262_140 + row.below(2),
        3 => header.csrc_count = 15 + row.below(2),
        4 => header.extensions.count = 32 + row.below(2),
        5 => header.extensions.lens[0] = [0, 16, 17, 255, 256, 1025][row.below(6)],
        6 => header.extension_profile = [0xBEDE, 0x1000, 7][row.below(3)],
        7 => header.extension = !header.extension,
        _ => {}
    }
    header
}

/// The record written in every way into buffers of `room` bytes; which refusal it is, 0 for none.
fn header_written(header: &Header, room: usize) -> u8 {
    let (mut by_value, mut written, mut parts) =
        (vec![0xEE; room], vec![0xEE; room], vec![0xEE; room]);
    // SAFETY: the buffers and the arrays are lent for the calls, and the buffers overlap nothing.
    let (answer, told) = unsafe {
        let answer = sys::rtp_header_marshal_to(*header, by_value.as_mut_ptr(), room);
        (answer, parts!(header, rtp_header_marshal_parts(parts.as_mut_ptr(), room)))
    };
    let wanted = answer.refused.check().map(|()| answer.bytes);
    assert_eq!(header.marshal_to(&mut written), wanted);
    assert_eq!((told.number, told.bytes), (answer.refused.number.into(), answer.bytes));
    assert_eq!((&written, &parts), (&by_value, &by_value));
    answer.refused.number
}

/// The same for a packet.
fn packet_written(packet: &Packet, room: usize) -> u8 {
    let Packet { header, payload } = packet;
    let (mut by_value, mut written, mut parts) =
        (vec![0xEE; room], vec![0xEE; room], vec![0xEE; room]);
    let (at, len) = (payload.as_ptr(), payload.len());
    // SAFETY: the slices and the arrays are lent for the calls, and the buffers overlap nothing.
    let (answer, told) = unsafe {
        let answer = sys::rtp_packet_marshal_to(*header, at, len, by_value.as_mut_ptr(), room);
        (answer, parts!(header, rtp_packet_marshal_parts(at, len, parts.as_mut_ptr(), room)))
    };
    let wanted = answer.refused.check().map(|()| answer.bytes);
    assert_eq!(packet.marshal_to(&mut written), wanted);
    assert_eq!((told.number, told.bytes), (answer.refused.number.into(), answer.bytes));
    assert_eq!((&written, &parts), (&by_value, &by_value));
    answer.refused.number
}

/// What the calls that look at a record answer, by value and in parts.
fn looked_at(row: &mut Row, header: &Header, payload: &[u8]) {
    let id = row.below(5) as u8;
    let (at, len) = (payload.as_ptr(), payload.len());
    // SAFETY: the record goes by value, and the slice is lent for its call.
    unsafe {
        let size = sys::rtp_header_marshal_size(*header);
        assert_eq!(header.marshal_size(), size.refused.check().map(|()| size.bytes));
        let size = sys::rtp_packet_marshal_size(*header, at, len);
        let packet = Packet { header: *header, payload };
        assert_eq!(packet.marshal_size(), size.refused.check().map(|()| size.bytes));
        let size = sys::rtp_header_get_extension_payload_len(*header);
        assert_eq!(header.get_extension_payload_len(), size.refused.check().map(|()| size.bytes));
        let got = sys::rtp_header_get_extension(*header, id);
        let data = || &header.extensions.bytes[got.at..got.at + got.len];
        let wanted = got.refused.check().map(|()| got.present.then(data));
        assert_eq!(header.get_extension(id), wanted);
        let listed = sys::rtp_header_get_extension_ids(*header);
        let wanted = listed.refused.check().map(|()| listed.ids[..listed.count].to_vec());
        assert_eq!(header.get_extension_ids(), wanted);
    }
}

#[test]
fn read() {
    let (mut refused, mut row) = ([0; 25], Row(1));
    for _ in 0..20_000 {
        let packet = packet(&mut row);
        refused[header_read(&mut row, &packet) as usize] += 1;
        refused[packet_read(&mut row, &packet) as usize] += 1;
    }
    let long = vec![0x80; 65_536];
    assert_eq!((header_read(&mut row, &long), packet_read(&mut row, &long)), (8, 8));
    // the packets reach each answer that there is
    assert!([0, 1, 2, 3, 4, 7].iter().all(|&number| refused[number] > 50), "{refused:?}");
}

#[test]
fn written() {
    let (mut refused, mut row) = ([0; 25], Row(2));
    let long = vec![0x55; 65_536];
    for _ in 0..10_000 {
        let header = record(&mut row);
        let size = header.marshal_size().unwrap_or(64).min(2_000);
        let room = [size, size + 3, size.saturating_sub(1), row.below(40)][row.below(4)];
        refused[header_written(&header, room) as usize] += 1;
        let payload = &long[..row.below(9)];
        looked_at(&mut row, &header, payload);
        let room = room + payload.len() + row.below(5);
        refused[packet_written(&Packet { header, payload }, room) as usize] += 1;
    }
    let longest = |len: usize| Packet { header: Header::default(), payload: &long[..len] };
    let numbers = [65_535, 65_536].map(|len| packet_written(&longest(len), 66_000));
    assert_eq!(numbers, [0, 8]);
    assert!([0, 5, 8, 10].iter().all(|&number| refused[number] > 50), "{refused:?}");
}
