//! The paper's worked packets, in its order, with which each list begins; with the published vectors
//! they are a list of their own, short enough to be read.

use crate::list::List;
use crate::vectors;

const H: &str = "806000010000000200000003";
const X: &str = "906000010000000200000003";
const P: &str = "a06000010000000200000003";
const EMPTY: &str = "0 0 0 0 0 0 0 0 - 0 - 0";
const FRESH: &str = "0 0 0 0 0 0 0 0 0 0 0 0 0";

pub fn rows(list: &mut List) {
    headers(list);
    packets(list);
    h264(list);
    vp8(list);
    published(list);
}

/// The answer without its `ok`, to be asked about again.
fn next(list: &mut List, question: String) -> String {
    let answer = list.ask(question);
    answer.strip_prefix("ok ").unwrap_or("-").to_string()
}

pub fn headers(list: &mut List) {
    list.ask(format!("header.read {H}"));
    list.ask(format!("header.read {}", &H[..22]));
    for rest in ["10aa0000", "f0aabbccdd", "0000001201020304", "000000120102"] {
        list.ask(format!("header.read {X}bede0001{rest}"));
    }
    let two = next(list, format!("header.set {EMPTY} 1 aabb"));
    let one = next(list, format!("header.set {two} 1 cc"));
    list.ask(format!("header.set {EMPTY} 1 cc"));
    list.ask(format!("header.del {one} 1"));
    let high = next(list, format!("header.set {EMPTY} 200 aabb"));
    list.ask(format!("header.write {high} 64 0"));
}

pub fn packets(list: &mut List) {
    list.ask(format!("packet.read {H}"));
    list.ask(format!("packet.read {P}00"));
    list.ask(format!("packet.read {P}"));
    list.ask("packet.write 2 1 0 0 96 1 2 3 - 0 - 0 01020304 20 255");
}

pub fn h264(list: &mut List) {
    for mtu in [4, 2] {
        list.ask(format!("h264.send {mtu} - - 000001650102030405"));
    }
    for mtu in [9, 8, 2] {
        list.ask(format!("h264.send {mtu} - - 00000167aa00000168bb000001650102"));
    }
    list.ask("h264.next 00000165010000000141 3");
    list.ask("h264.send 100 - - 00000165010000000141");
    list.ask("h264.read 0 - 1800014105");
}

pub fn vp8(list: &mut List) {
    for question in ["1 127 4", "1 128 4", "1 128 5"] {
        list.ask(format!("vp8.send {question} aabb"));
    }
    let fields = next(list, format!("vp8.read {FRESH} 908005aa"));
    let fields = fields.split_once(' ').map_or("-", |(_, fields)| fields);
    list.ask(format!("vp8.read {fields} 1007aabb"));
    list.ask(format!("vp8.read {FRESH} 10aabb"));
}

fn published(list: &mut List) {
    for vector in vectors::each(vectors::PACKET) {
        list.ask(format!("header.read {vector}"));
        list.ask(format!("packet.read {vector}"));
    }
    for vector in vectors::each(vectors::H264) {
        list.ask(format!("h264.send 5 - - {vector}"));
        list.ask(format!("h264.send 1500 - - {vector}"));
        list.ask(format!("h264.read 0 - {vector}"));
        list.ask(format!("h264.read 1 - {vector}"));
        list.ask(format!("h264.head {vector}"));
    }
    for vector in vectors::each(vectors::VP8) {
        list.ask(format!("vp8.send 1 127 6 {vector}"));
        list.ask(format!("vp8.read {FRESH} {vector}"));
        list.ask(format!("vp8.head {vector}"));
    }
}
