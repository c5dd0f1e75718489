//! Headers and packets, read and written.

use std::hint::black_box;

use bytes::Bytes;
use oracle::header::Header;
use oracle::packet::Packet;
use rtp_rattle::header::Header as Record;
use rtp_rattle::packet::Packet as Lent;
use util::marshal::{Marshal, MarshalSize, Unmarshal};

use crate::by_value;
use crate::timing::{beside, Row};

const PLAIN: [u8; 12] = [0x80, 0x60, 0, 1, 0, 0, 0, 2, 0, 0, 0, 3];
/// A block of three elements of 1, 3 and 4 bytes.
const BLOCK: [u8; 16] = [0xBE, 0xDE, 0, 3, 0x10, 1, 0x22, 2, 2, 2, 0x33, 3, 3, 3, 3, 0];

pub fn rows() -> Vec<Row> {
    let mut extended = [&PLAIN[..], &BLOCK].concat();
    extended[0] |= 0x10;
    let payload = [0x55; 1_200];
    let plain_packet = [&PLAIN[..], &payload].concat();
    let extended_packet = [&extended[..], &payload].concat();
    vec![
        header_read("header read", &PLAIN),
        header_read("header read, 3 elements", &extended),
        header_read_into("header read in place", &PLAIN),
        header_read_into("header read in place, 3 elements", &extended),
        header_read_by_value("header read, the record by value", &PLAIN),
        header_read_by_value("header read, the record by value, 3 elements", &extended),
        header_write("header write", &PLAIN),
        header_write("header write, 3 elements", &extended),
        header_write_by_value("header write, the record by value", &PLAIN),
        header_write_by_value("header write, the record by value, 3 elements", &extended),
        header_size("header size", &PLAIN),
        header_size("header size, 3 elements", &extended),
        get("header get_extension, the third of 3", &extended),
        set("header set_extension, the third of 3", &extended),
        packet_read("packet read, 1,200 bytes", &plain_packet),
        packet_read("packet read, 3 elements", &extended_packet),
        packet_read_into("packet read in place, 1,200 bytes", &plain_packet),
        packet_read_into("packet read in place, 3 elements", &extended_packet),
        packet_read_by_value("packet read, the record by value", &plain_packet),
        packet_read_by_value("packet read, the record by value, 3 elements", &extended_packet),
        packet_write("packet write, 1,200 bytes", &plain_packet),
        packet_write("packet write, 3 elements", &extended_packet),
        packet_write_by_value("packet write, the record by value", &plain_packet),
        packet_write_by_value("packet write, the record by value, 3 elements", &extended_packet),
        packet_size("packet size, 1,200 bytes", &plain_packet),
    ]
}

/// The Rust's own reading of a header.
fn rust_header(bytes: &[u8]) -> impl FnMut() {
    let shared = Bytes::copy_from_slice(bytes);
    move || {
        black_box(&Header::unmarshal(&mut black_box(&shared).clone()).expect("a header"));
    }
}

/// The Rust's own reading of a packet.
fn rust_packet(bytes: &[u8]) -> impl FnMut() {
    let shared = Bytes::copy_from_slice(bytes);
    move || {
        black_box(&Packet::unmarshal(&mut black_box(&shared).clone()).expect("a packet"));
    }
}

fn header_read(what: &'static str, bytes: &[u8]) -> Row {
    let here = || {
        black_box(&Record::unmarshal(black_box(bytes)).expect("a header"));
    };
    beside(what, &[bytes], here, Some(rust_header(bytes)))
}

fn header_read_into(what: &'static str, bytes: &[u8]) -> Row {
    let mut record = Record::default();
    let here = || {
        black_box(&mut record).unmarshal_into(black_box(bytes)).expect("a header");
    };
    beside(what, &[bytes], here, Some(rust_header(bytes)))
}

fn header_read_by_value(what: &'static str, bytes: &[u8]) -> Row {
    let here = || {
        black_box(&by_value::header_read(black_box(bytes)));
    };
    beside(what, &[bytes], here, Some(rust_header(bytes)))
}

fn header_write(what: &'static str, bytes: &[u8]) -> Row {
    header_write_with(what, bytes, |record, buf| record.marshal_to(buf).expect("room"))
}

fn header_write_by_value(what: &'static str, bytes: &[u8]) -> Row {
    header_write_with(what, bytes, by_value::header_write)
}

fn header_write_with(
    what: &'static str,
    bytes: &[u8],
    write: impl Fn(&Record, &mut [u8]) -> usize,
) -> Row {
    let (record, _) = Record::unmarshal(bytes).expect("a header");
    let header = Header::unmarshal(&mut &*bytes).expect("a header");
    let (mut ours, mut theirs) = ([0; 64], [0; 64]);
    let here = || {
        write(black_box(&record), black_box(&mut ours));
    };
    let rust = || {
        black_box(&header).marshal_to(black_box(&mut theirs)).expect("room");
    };
    beside(what, &[bytes], here, Some(rust))
}

fn header_size(what: &'static str, bytes: &[u8]) -> Row {
    let (record, _) = Record::unmarshal(bytes).expect("a header");
    let header = Header::unmarshal(&mut &*bytes).expect("a header");
    let here = || {
        black_box(black_box(&record).marshal_size().expect("a size"));
    };
    let rust = || {
        black_box(black_box(&header).marshal_size());
    };
    beside(what, &[bytes], here, Some(rust))
}

fn get(what: &'static str, bytes: &[u8]) -> Row {
    let (record, _) = Record::unmarshal(bytes).expect("a header");
    let header = Header::unmarshal(&mut &*bytes).expect("a header");
    let here = || {
        black_box(black_box(&record).get_extension(black_box(3)).expect("a record"));
    };
    let rust = || {
        black_box(black_box(&header).get_extension(black_box(3)));
    };
    beside(what, &[bytes], here, Some(rust))
}

fn set(what: &'static str, bytes: &[u8]) -> Row {
    let (mut record, _) = Record::unmarshal(bytes).expect("a header");
    let mut header = Header::unmarshal(&mut &*bytes).expect("a header");
    let data = Bytes::from_static(&[4, 3, 2, 1]);
    let here = || {
        black_box(&mut record).set_extension(3, black_box(&[4, 3, 2, 1])).expect("set");
    };
    let rust = || {
        black_box(&mut header).set_extension(3, black_box(&data).clone()).expect("set");
    };
    beside(what, &[bytes], here, Some(rust))
}

fn packet_size(what: &'static str, bytes: &[u8]) -> Row {
    let lent = Lent::unmarshal(bytes).expect("a packet");
    let packet = Packet::unmarshal(&mut Bytes::copy_from_slice(bytes)).expect("a packet");
    let here = || {
        black_box(black_box(&lent).marshal_size().expect("a size"));
    };
    let rust = || {
        black_box(black_box(&packet).marshal_size());
    };
    beside(what, &[bytes], here, Some(rust))
}

fn packet_read(what: &'static str, bytes: &[u8]) -> Row {
    let here = || {
        black_box(&Lent::unmarshal(black_box(bytes)).expect("a packet"));
    };
    beside(what, &[bytes], here, Some(rust_packet(bytes)))
}

fn packet_read_into(what: &'static str, bytes: &[u8]) -> Row {
    let mut packet = Lent::default();
    let here = || {
        black_box(&mut packet).unmarshal_into(black_box(bytes)).expect("a packet");
    };
    beside(what, &[bytes], here, Some(rust_packet(bytes)))
}

fn packet_read_by_value(what: &'static str, bytes: &[u8]) -> Row {
    let here = || {
        black_box(&by_value::packet_read(black_box(bytes)));
    };
    beside(what, &[bytes], here, Some(rust_packet(bytes)))
}

fn packet_write(what: &'static str, bytes: &[u8]) -> Row {
    packet_write_with(what, bytes, |packet, buf| packet.marshal_to(buf).expect("room"))
}

fn packet_write_by_value(what: &'static str, bytes: &[u8]) -> Row {
    packet_write_with(what, bytes, by_value::packet_write)
}

fn packet_write_with(
    what: &'static str,
    bytes: &[u8],
    write: impl Fn(&Lent, &mut [u8]) -> usize,
) -> Row {
    let lent = Lent::unmarshal(bytes).expect("a packet");
    let packet = Packet::unmarshal(&mut Bytes::copy_from_slice(bytes)).expect("a packet");
    let (mut ours, mut theirs) = ([0; 1_500], [0; 1_500]);
    let here = || {
        write(black_box(&lent), black_box(&mut ours));
    };
    let rust = || {
        black_box(&packet).marshal_to(black_box(&mut theirs)).expect("room");
    };
    beside(what, &[bytes], here, Some(rust))
}
