//! Questions about packets.

use oracle::header::Header;
use oracle::record::text;
use oracle::text::hex;
use util::marshal::MarshalSize;

use crate::cases;
use crate::list::List;
use crate::reading::{self, extended, padded};
use crate::records::{self, element, holding, off, ONE_BYTE, OTHER, TWO_BYTE};
use crate::vectors;

pub fn rows(list: &mut List) {
    cases::packets(list);
    published(list);
    short_packets(list);
    padding_counts(list);
    random_packets(list);
    sizes_and_buffers(list);
    refused_writes(list);
    edges(list);
    random_writes(list);
}

fn published(list: &mut List) {
    for vector in vectors::each(vectors::PACKET) {
        let answer = list.ask(format!("packet.read {vector}"));
        let Some((place, len, record)) = read(&answer) else {
            continue;
        };
        let payload = if len == 0 { "-" } else { &vector[2 * place..2 * (place + len)] };
        list.ask(format!("packet.size {record} {payload}"));
        list.ask(format!("packet.write {record} {payload} 56 119"));
    }
}

/// Place and length of the payload, and the record, if a packet was read.
fn read(answer: &str) -> Option<(usize, usize, &str)> {
    let mut parts = answer.strip_prefix("ok ")?.splitn(3, ' ');
    Some((parts.next()?.parse().ok()?, parts.next()?.parse().ok()?, parts.next()?))
}

fn short_packets(list: &mut List) {
    use reading::*;
    for packets in [notable(), lengths(), two_byte_lengths(), limits()] {
        for packet in packets {
            list.ask(format!("packet.read {}", hex(&packet)));
            if (13..200).contains(&packet.len()) {
                list.ask(format!("packet.read {}", hex(&padded(packet))));
            }
        }
    }
}

/// "the last byte n strips n bytes; n = 0 strips nothing; an empty payload or n too large is 4"
fn padding_counts(list: &mut List) {
    let plain = vec![0xA0; 12];
    let extended = [
        extended(ONE_BYTE, 1, &[0x10, 0xAA, 0, 0]),
        extended(ONE_BYTE, 1, &[0xF0, 0xAA, 0xBB, 0xCC]),
        extended(TWO_BYTE, 1, &[0, 0, 0, 7, 1, 0xAB]),
        extended(OTHER, 0, &[]),
    ];
    for header in extended.map(padded).into_iter().chain([plain]) {
        for len in [0, 1, 2, 3, 4, 5, 8] {
            for count in (0..len as u8 + 5).chain([128, 255]) {
                let mut packet = header.clone();
                packet.extend(vec![0xEE; len]);
                *packet.last_mut().expect("a header") = count;
                list.ask(format!("packet.read {}", hex(&packet)));
            }
        }
    }
    for len in [254, 255, 256] {
        for count in [0, 1, 254, 255] {
            let packet = [&[0xA0][..], &[7; 11], &vec![1; len - 1], &[count]].concat();
            list.ask(format!("packet.read {}", hex(&packet)));
        }
    }
}

fn random_packets(list: &mut List) {
    for _ in 0..250 {
        let packet = reading::lawful(&mut list.random);
        list.ask(format!("packet.read {}", hex(&packet)));
        for _ in 0..3 {
            let damaged = list.random.damaged(&packet);
            list.ask(format!("packet.read {}", hex(&damaged)));
        }
    }
    for _ in 0..200 {
        let packet = reading::random_block(&mut list.random);
        list.ask(format!("packet.read {}", hex(&padded(packet))));
    }
}

fn size(header: &Header, payload: &[u8]) -> usize {
    let padding = if header.padding { 4 - payload.len() % 4 } else { 0 };
    header.marshal_size() + payload.len() + padding
}

/// Buffers of exactly the size, a byte less, and some more.
fn write(list: &mut List, header: &Header, payload: &[u8]) {
    let (record, shown, size) = (text(header), hex(payload), size(header, payload));
    list.ask(format!("packet.size {record} {shown}"));
    for len in [size - 1, size, size + 2] {
        let fill = list.random.byte();
        list.ask(format!("packet.write {record} {shown} {} {fill}", len.min(1_500)));
    }
}

/// "an aligned payload gets 4"; the payload stands behind what was written, not behind the size.
fn sizes_and_buffers(list: &mut List) {
    let headers = [
        off(&holding(0, vec![], 0)),
        Header { csrc: vec![1, 2], ..off(&holding(0, vec![], 5)) },
        holding(ONE_BYTE, vec![element(1, 1)], 2),
        holding(ONE_BYTE, vec![element(1, 1)], 3),
        holding(ONE_BYTE, vec![], 6),
        holding(TWO_BYTE, vec![element(200, 3)], 20),
        holding(OTHER, vec![element(0, 4)], 0),
    ];
    for header in headers {
        for padding in [false, true] {
            for len in 0..10 {
                let payload: Vec<u8> = (0xC0..0xC0 + len).collect();
                write(list, &Header { padding, ..header.clone() }, &payload);
            }
        }
    }
}

/// "Writing: 5, 9, 10."
fn refused_writes(list: &mut List) {
    for lens in [&[][..], &[3], &[2, 1], &[2, 2], &[4, 4], &[0]] {
        let elements: Vec<_> = lens.iter().map(|len| element(0, *len)).collect();
        for padding in [false, true] {
            write(list, &Header { padding, ..holding(OTHER, elements.clone(), 1) }, &[1, 2, 3]);
        }
    }
}

fn edges(list: &mut List) {
    let each = records::edges().into_iter().chain(records::full());
    for header in each {
        for header in [off(&header), header] {
            let (record, len) = (text(&header), size(&header, &[1, 2, 3]).min(1_300));
            list.ask(format!("packet.size {record} 010203"));
            for len in [0, 11, 15, len] {
                list.ask(format!("packet.write {record} 010203 {len} 90"));
            }
        }
    }
}

/// Writes, then reads what was written.
fn random_writes(list: &mut List) {
    for _ in 0..120 {
        let header = records::any(&mut list.random);
        let len = list.random.below(12);
        let payload = list.random.bytes(len);
        let (record, fill) = (text(&header), list.random.byte());
        let question =
            format!("packet.write {record} {} {} {fill}", hex(&payload), size(&header, &payload));
        let answer = list.ask(question);
        let Some((count, buffer)) =
            answer.strip_prefix("ok ").and_then(|rest| rest.split_once(' '))
        else {
            continue;
        };
        let count: usize = count.parse().expect("a count");
        list.ask(format!("packet.read {}", &buffer[..2 * count]));
    }
}
