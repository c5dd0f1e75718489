//! The paper's limits from both sides, among them those too long for a list of questions.

use oracle::{answer, Judge};

const X: &str = "906000010000000200000003";

fn asked(question: &str, expected: &str) {
    assert_eq!(answer(question), expected, "{:.200}", question);
}

/// Asks, and compares the answer's first tokens.
fn begins(question: &str, expected: &str) {
    let answer = answer(question);
    assert!(answer.starts_with(expected), "{question:.200}: {answer:.200}");
}

fn bytes(byte: u8, count: usize) -> String {
    format!("{byte:02x}").repeat(count)
}

// "packets up to 65,535 bytes"
#[test]
fn longest_packet() {
    let (inside, outside) = (bytes(0x80, 65_535), bytes(0x80, 65_536));
    begins(&format!("header.read {inside}"), "ok 12 ");
    begins(&format!("packet.read {inside}"), "ok 12 65523 ");
    begins(&format!("h264.read 0 - 65{}", bytes(0, 65_534)), "ok - 0000000165");
    begins(&format!("vp8.read 0 0 0 0 0 0 0 0 0 0 0 0 0 {}", bytes(0, 65_535)), "ok 1 ");
    asked(&format!("h264.head {inside}"), "1");
    asked(&format!("vp8.head {inside}"), "0");
    for call in ["header.read", "packet.read", "h264.read 0 -", "h264.head", "vp8.head"] {
        asked(&format!("{call} {outside}"), "refused 8");
    }
    asked(&format!("vp8.read 0 0 0 0 0 0 0 0 0 0 0 0 0 {outside}"), "refused 8");
}

// "a payload to be written up to 65,535"
#[test]
fn longest_payload() {
    let record = "2 0 0 0 96 1 2 3 - 0 - 0";
    let (inside, outside) = (bytes(7, 65_535), bytes(7, 65_536));
    asked(&format!("packet.size {record} {inside}"), "ok 65547");
    begins(&format!("packet.write {record} {inside} 65547 0"), "ok 65547 80");
    asked(&format!("packet.write {record} {inside} 65546 0"), "refused 5");
    asked(&format!("packet.size {record} {outside}"), "refused 8");
    asked(&format!("packet.write {record} {outside} 70000 0"), "refused 8");
}

// "frames up to 16,777,216; mtu 0 to 65,535"
#[test]
fn longest_frame() {
    let (inside, outside) = (bytes(0x65, 16_777_216), bytes(0x65, 16_777_217));
    begins(&format!("h264.send 65535 - - {inside}"), "ok - - 0 0 7c85");
    begins(&format!("vp8.send 0 0 65535 {inside}"), "ok 1 10");
    asked(&format!("h264.next {inside} 16777216"), "none");
    asked(&format!("h264.send 65535 - - {outside}"), "refused 8");
    asked(&format!("vp8.send 0 0 65535 {outside}"), "refused 8");
    asked(&format!("h264.next {outside} 0"), "refused 8");
}

// "or the run over 16,777,215 bytes": 6; a record that already holds more: 8.
#[test]
fn longest_run() {
    let run = |count| bytes(1, count);
    begins(&format!("h264.read 0 {} 7c0501", run(16_777_214)), "ok 01");
    asked(&format!("h264.read 0 {} 7c0501", run(16_777_215)), "refused 6");
    asked(&format!("h264.read 0 {} 7c4501", run(16_777_215)), "refused 6");
    asked(&format!("h264.read 0 {} 7c0501", run(16_777_216)), "refused 8");
}

// "Reading: 1, 2, then per element 3, 7, then 4."
#[test]
fn order_of_seven() {
    let of = |head: &str, count: usize, end: &str| {
        format!("{X}10000{head}{}{end}", "0100".repeat(count))
    };
    begins(&format!("packet.read {}", of("010", 32, "")), "ok 80 0 ");
    asked(&format!("packet.read {}", of("011", 33, "0000")), "refused 7");
    // 33 elements, the next one past the packet: the Rust panics.
    asked(&format!("packet.read {}", of("011", 33, "01ff")), "refused 7");
    assert_eq!(Judge::Rust.answer(&format!("packet.read {}", of("011", 33, "01ff"))), "refused 3");
    // 32 elements, the 33rd past the packet.
    asked(&format!("packet.read {}", of("011", 32, "01ff0000")), "refused 3");
    // 33 elements and the padding bit without a payload: the Rust's ErrShortPacket.
    let padded = of("011", 33, "0000").replacen("90", "b0", 1);
    asked(&format!("packet.read {padded}"), "refused 7");
    assert_eq!(Judge::Rust.answer(&format!("packet.read {padded}")), "refused 4");
}

// "H.264 reading: 4, 19, 17 or 18 at the first place, 6, 5."
#[test]
fn order_of_h264_reading() {
    asked("h264.read 0 0101 7c 1 0", "refused 8");
    asked("h264.read 0 01 7c 1 0", "refused 4");
    asked("h264.read 0 01 7d0000 1 0", "refused 19 29");
    asked("h264.read 0 01 7800054142 1 0", "refused 17 5 2");
    asked("h264.read 0 01 7800014100 1 0", "refused 18");
    asked("h264.read 0 01 7c4501 1 0", "refused 6");
    asked("h264.read 0 01 7c4501 2 6", "refused 5");
    asked("h264.read 0 01 7c4501 2 7", "ok - 00000001650101");
}

// "H.264 sending: 7, then 5."
#[test]
fn order_of_h264_sending() {
    let set = |count: usize| format!("67{}", bytes(1, count - 1));
    asked(&format!("h264.send 1 - - {}", set(1_025)), "refused 7");
    asked(&format!("h264.send 0 - - {}", set(1_025)), "ok - - 0 0 -");
    asked(&format!("h264.send 1 - - {} 0 0", set(1_024)), &format!("ok {} - 0 0 -", set(1_024)));
    // A set that a later one replaces is saved too; what stands before the first start code is no
    // unit.
    asked(&format!("h264.send 1 - - 000001{}0000016700000165 0 0", set(1_025)), "refused 7");
    asked(&format!("h264.send 1 - - {}0000016700000165", set(1_025)), "ok 67 - 0 0 65");
    asked("h264.send 1 - - 65 0 1", "refused 5");
    asked("h264.send 1 - - 65 1 0", "refused 5");
    asked("h264.send 1 - - 65 1 1", "ok - - 0 0 65");
}

#[test]
fn unreadable() {
    let questions = [
        "",
        "header",
        "header.",
        "header.read",
        "header.read  80",
        "header.read 8",
        "header.read 8G",
        "header.read 80 ",
        "header.read AA",
        "header.read - -",
        "h264.tail 2",
        "h264.tail +1",
        "h264.send 5 - - 65 1",
        "vp8.send 1 65536 4 aa",
        "header.size 2 0 0 0 96 1 2 3 01 0 - 0",
        "header.size 2 0 0 0 96 1 2 3 - 0 010002aa 0",
        "header.write 2 0 0 0 96 1 2 3 - 0 - 0 99999999 0",
    ];
    for question in questions {
        asked(question, "bad question");
    }
}

#[test]
fn the_rust_alone() {
    let asked = |question: &str| Judge::Rust.answer(question);
    assert_eq!(asked("h264.send 65536 - - 65"), "outside");
    assert_eq!(asked("h264.send 1 - - 65 0 0"), "ok - - 0 0 65");
    assert_eq!(asked("h264.read 0 01 7c4501 1 0"), "ok - 00000001650101");
    assert_eq!(asked("header.write 2 0 1 0 96 1 2 3 - 48862 010000 0 40 0"), "outside");
}
