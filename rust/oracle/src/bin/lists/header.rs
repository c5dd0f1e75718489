//! Questions about headers.

use oracle::header::{Extension, Header};
use oracle::record::text;
use oracle::text::hex;
use util::marshal::MarshalSize;

use crate::cases;
use crate::list::List;
use crate::reading;
use crate::records::{self, element, holding, off, ONE_BYTE, OTHER, TWO_BYTE};
use crate::vectors;

pub fn rows(list: &mut List) {
    cases::headers(list);
    published(list);
    short_packets(list);
    random_packets(list);
    edges(list);
    full(list);
    sizes(list);
    words_and_counts(list);
    padding_arithmetic(list);
    first_sets(list);
    ids_and_sizes(list);
    repeated_ids(list);
    setting_past_the_limits(list);
    random_records(list);
    walks(list);
}

fn published(list: &mut List) {
    for vector in vectors::each(vectors::PACKET) {
        if let Some(record) = read(list, vector) {
            list.ask(format!("header.size {record}"));
            list.ask(format!("header.write {record} 48 238"));
            list.ask(format!("header.ids {record}"));
        }
    }
}

/// The record read, if it was.
fn read(list: &mut List, packet: &str) -> Option<String> {
    let answer = list.ask(format!("header.read {packet}"));
    let (_, record) = answer.strip_prefix("ok ")?.split_once(' ')?;
    Some(record.to_string())
}

fn short_packets(list: &mut List) {
    use reading::*;
    for packets in
        [notable(), lengths(), blocks(), heads(), two_byte_lengths(), block_lengths(), limits()]
    {
        for packet in packets {
            read(list, &hex(&packet));
        }
    }
}

fn random_packets(list: &mut List) {
    for _ in 0..150 {
        let packet = reading::lawful(&mut list.random);
        read(list, &hex(&packet));
        for _ in 0..2 {
            let packet = list.random.damaged(&packet);
            read(list, &hex(&packet));
        }
    }
    for _ in 0..150 {
        let packet = reading::random_block(&mut list.random);
        read(list, &hex(&packet));
    }
}

/// Writes into buffers of exactly the size, a byte less, and some more.
fn write(list: &mut List, header: &Header) {
    let size = header.marshal_size();
    for len in [size.saturating_sub(1), size, size + 3] {
        // A size beyond this is asked about with a buffer that is too small.
        let len = len.min(1_500);
        let fill = list.random.byte();
        list.ask(format!("header.write {} {len} {fill}", text(header)));
    }
}

fn every_call(list: &mut List, header: &Header) {
    let record = text(header);
    let fill = list.random.byte();
    let len = header.marshal_size().min(1_500);
    list.ask(format!("header.size {record}"));
    list.ask(format!("header.len {record}"));
    list.ask(format!("header.write {record} {len} {fill}"));
    list.ask(format!("header.set {record} 2 aabbcc"));
    list.ask(format!("header.del {record} 2"));
    list.ask(format!("header.get {record} 2"));
    list.ask(format!("header.ids {record}"));
}

/// With a buffer that is too small as well: "8 first".
fn edges(list: &mut List) {
    for header in records::edges() {
        for header in [off(&header), header] {
            every_call(list, &header);
            list.ask(format!("header.write {} 11 7", text(&header)));
        }
    }
}

fn full(list: &mut List) {
    for header in records::full() {
        every_call(list, &header);
        list.ask(format!("header.write {} 1000 7", text(&header)));
        list.ask(format!("header.write {} 60 7", text(&off(&header))));
    }
}

/// "The written block leaves extensions_padding out, so fewer bytes than the size may be written".
fn sizes(list: &mut List) {
    for padding in 0..9 {
        for elements in [vec![], vec![element(1, 1)], vec![element(1, 3), element(2, 2)]] {
            for profile in [ONE_BYTE, TWO_BYTE] {
                write(list, &holding(profile, elements.clone(), padding));
            }
        }
    }
}

/// "9: other profile, element bytes not a multiple of 4"; "10: .. write with element count not 1";
/// 5 before both.
fn words_and_counts(list: &mut List) {
    let mut each = vec![vec![], vec![0, 0], vec![2, 1], vec![2, 2], vec![1, 3], vec![4, 4]];
    each.extend([vec![4, 4, 4], vec![1, 1, 1]]);
    each.extend([0, 1, 2, 3, 4, 5, 8].map(|len| vec![len]));
    for lens in each {
        let elements: Vec<Extension> = lens.iter().map(|len| element(0, *len)).collect();
        for profile in [OTHER, 0, 0x1001] {
            write(list, &holding(profile, elements.clone(), 0));
            write(list, &holding(profile, elements.clone(), 3));
        }
    }
}

/// Growing, shrinking, appending and deleting at each padding and each pair of lengths.
fn padding_arithmetic(list: &mut List) {
    for padding in [0, 1, 2, 3, 4, 5, 7, 262_140] {
        for old in [0, 1, 2, 3, 4] {
            for profile in [ONE_BYTE, TWO_BYTE, OTHER] {
                let id = u8::from(profile != OTHER);
                let record = text(&holding(profile, vec![element(id, old)], padding));
                list.ask(format!("header.del {record} {id}"));
                for new in [0, 1, 2, 3, 4, 7].map(|len| hex(&vec![0xC5; len])) {
                    if profile == ONE_BYTE || padding < 3 {
                        list.ask(format!("header.set {record} {id} {new}"));
                    }
                    if profile != OTHER && old == 1 {
                        list.ask(format!("header.set {record} 2 {new}"));
                    }
                }
            }
        }
    }
}

/// "The first set picks 0xBEDE for 0 to 16 bytes, 0x1000 for 17 to 255, else keeps the profile; it
/// does not check the id."
fn first_sets(list: &mut List) {
    for profile in [0, ONE_BYTE, TWO_BYTE, OTHER] {
        for padding in [0, 1, 2, 5] {
            for len in [0, 1, 2, 3, 15, 16, 17, 18, 255, 256, 257] {
                let old = if padding == 1 { vec![element(7, 1)] } else { vec![] };
                let record = text(&off(&holding(profile, old, padding)));
                if len < 200 || padding == 2 {
                    let id = list.random.pick(&[0, 1, 7, 14, 15, 200]);
                    list.ask(format!("header.set {record} {id} {}", hex(&vec![0xD7; len])));
                }
            }
        }
    }
    kept_profile(list);
}

/// Elements beyond the kept profile's own sizes: set later, then written.
fn kept_profile(list: &mut List) {
    for profile in [ONE_BYTE, TWO_BYTE] {
        let mut record = text(&off(&holding(profile, vec![], 0)));
        for (id, len) in [(1, 256), (2, 1), (1, 3), (2, 0)] {
            let answer = list.ask(format!("header.set {record} {id} {}", hex(&vec![0x3C; len])));
            record = answer.strip_prefix("ok ").unwrap_or(&record).to_string();
            list.ask(format!("header.size {record}"));
            list.ask(format!("header.write {record} 300 1"));
        }
    }
}

fn ids_and_sizes(list: &mut List) {
    for (profile, sizes) in
        [(ONE_BYTE, [0, 16, 17]), (TWO_BYTE, [0, 255, 256]), (OTHER, [0, 5, 256])]
    {
        let record = text(&holding(profile, vec![element(3, 1)], 2));
        for id in [0, 1, 2, 3, 4, 13, 14, 15, 16, 254, 255] {
            for size in sizes {
                // Of the long ones, some ids will do.
                if size < 255 || id < 4 {
                    list.ask(format!("header.set {record} {id} {}", hex(&vec![0xE9; size])));
                }
            }
            list.ask(format!("header.del {record} {id}"));
            list.ask(format!("header.get {record} {id}"));
        }
    }
}

/// "replace the first element of that id or append. Delete keeps the others' order."
fn repeated_ids(list: &mut List) {
    for ids in [[1, 1, 1], [1, 2, 1], [2, 1, 1], [2, 3, 4]] {
        for profile in [ONE_BYTE, TWO_BYTE, OTHER] {
            let elements: Vec<Extension> =
                ids.iter().zip(1..).map(|(id, len)| element(*id, len)).collect();
            let header = holding(profile, elements, 3);
            for header in [off(&header), header] {
                let record = text(&header);
                list.ask(format!("header.ids {record}"));
                for id in [0, 1, 2] {
                    list.ask(format!("header.get {record} {id}"));
                    list.ask(format!("header.del {record} {id}"));
                    list.ask(format!("header.set {record} {id} 99"));
                }
            }
        }
    }
}

/// "reading or setting would pass 32 elements or 1,024 data bytes", judged on the result;
/// "10 to 14, then 7".
fn setting_past_the_limits(list: &mut List) {
    for profile in [ONE_BYTE, TWO_BYTE, OTHER] {
        for count in [31, 32] {
            let elements = (1..=count).map(|id| element(id % 14 + 1, 1)).collect();
            let header = holding(profile, elements, 0);
            for record in [text(&off(&header)), text(&header)] {
                for id in [0, 1, 14, 40] {
                    list.ask(format!("header.set {record} {id} aa"));
                }
            }
        }
    }
    let [empty, short] = [vec![], vec![element(0, 8)]].map(|elements| holding(OTHER, elements, 0));
    for payload in [1_024, 1_025, 1_100].map(|len| hex(&vec![0x5A; len])) {
        for header in [off(&empty), empty.clone(), short.clone()] {
            list.ask(format!("header.set {} 0 {payload}", text(&header)));
        }
    }
    nearly_full(list);
}

fn nearly_full(list: &mut List) {
    let mut elements: Vec<Extension> = (1..5).map(|id| element(id, 255)).collect();
    elements.push(element(5, 2));
    let record = text(&holding(TWO_BYTE, elements, 0));
    for (id, len) in [(5, 4), (5, 5), (6, 2), (6, 3), (6, 0), (0, 9), (1, 255), (1, 256)] {
        list.ask(format!("header.set {record} {id} {}", hex(&vec![0x6B; len])));
    }
}

fn random_records(list: &mut List) {
    for _ in 0..50 {
        let header = records::any(&mut list.random);
        write(list, &header);
        every_call(list, &header);
    }
}

/// Sets, deletes, reads and writes one after the other, each on the record that the last one left.
fn walks(list: &mut List) {
    for _ in 0..20 {
        let mut record = text(&Header::default());
        for _ in 0..14 {
            let id = list.random.pick(&[1, 1, 2, 3, 0, 14, 15]);
            let len = list.random.pick(&[0, 1, 2, 3, 4, 5, 16, 17]);
            let payload = hex(&list.random.bytes(len));
            let question = match list.random.below(8) {
                0..=3 => format!("header.set {record} {id} {payload}"),
                4..=5 => format!("header.del {record} {id}"),
                6 => format!("header.get {record} {id}"),
                _ => format!("header.write {record} 100 {}", list.random.byte()),
            };
            let answer = list.ask(question.clone());
            let changed = question.starts_with("header.set") || question.starts_with("header.del");
            if let (true, Some(next)) = (changed, answer.strip_prefix("ok ")) {
                record = next.to_string();
            }
        }
    }
}
