//! The paper's worked packets, in its order, each by its own line. The joiner's are not the Rust's
//! to run.

use oracle::answer;

const H: &str = "806000010000000200000003";
const X: &str = "906000010000000200000003";

/// The tokens of H's fields up to the CSRCs, with the padding and extension bits as given.
fn fields(padding: u8, extension: u8) -> String {
    format!("2 {padding} {extension} 0 96 1 2 3 -")
}

fn asked(question: &str, expected: &str) {
    assert_eq!(answer(question), expected, "{question}");
}

// "*H: version 2, type 96, empty payload. *Its first 11 bytes: 1."
#[test]
fn smallest_header() {
    asked(&format!("header.read {H}"), &format!("ok 12 {} 0 - 0", fields(0, 0)));
    asked(&format!("packet.read {H}"), &format!("ok 12 0 {} 0 - 0", fields(0, 0)));
    asked(&format!("header.read {}", &H[..22]), "refused 1");
    asked(&format!("packet.read {}", &H[..22]), "refused 1");
}

// "*X `BEDE 0001 10AA0000`: id 1, AA, padding 2."
#[test]
fn one_byte_element() {
    let read = format!("ok 20 {} 48862 010001aa 2", fields(0, 1));
    asked(&format!("header.read {X}bede000110aa0000"), &read);
}

// "*X `BEDE 0001 F0AABBCC DD`: no element, payload AABBCCDD."
#[test]
fn id_15_ends_reading() {
    let packet = format!("{X}bede0001f0aabbccdd");
    asked(&format!("packet.read {packet}"), &format!("ok 17 4 {} 48862 - 0", fields(0, 1)));
    assert_eq!(&packet[2 * 17..], "aabbccdd");
}

// "*X `BEDE 0001 00000012 01020304`: element 010203, payload 04. Ending `0102`: 3."
#[test]
fn element_past_the_block() {
    let read = format!("ok 23 1 {} 48862 010003010203 3", fields(0, 1));
    asked(&format!("packet.read {X}bede00010000001201020304"), &read);
    asked(&format!("packet.read {X}bede0001000000120102"), "refused 3");
    asked(&format!("header.read {X}bede0001000000120102"), "refused 3");
}

// "Set id 1 to 2 bytes on an empty header: padding 1; to 1 byte: 2; delete: 0.
// First set of id 200 to 2 bytes: taken; writing it: 8."
#[test]
fn setting() {
    let empty = "0 0 0 0 0 0 0 0 - 0 - 0";
    let two = "0 0 1 0 0 0 0 0 - 48862 010002aabb 1";
    let one = "0 0 1 0 0 0 0 0 - 48862 010001cc 2";
    let none = "0 0 1 0 0 0 0 0 - 48862 - 0";
    asked(&format!("header.set {empty} 1 aabb"), &format!("ok {two}"));
    asked(&format!("header.set {two} 1 cc"), &format!("ok {one}"));
    asked(&format!("header.del {one} 1"), &format!("ok {none}"));

    let high = "0 0 1 0 0 0 0 0 - 48862 c80002aabb 1";
    asked(&format!("header.set {empty} 200 aabb"), &format!("ok {high}"));
    asked(&format!("header.write {high} 64 0"), "refused 8");
}

// "*Padding bit, payload 00: payload 00. *Empty: 4. *Writing 01020304 appends 00000004."
#[test]
fn padding() {
    let padded = H.replacen("80", "a0", 1);
    asked(&format!("packet.read {padded}00"), &format!("ok 12 1 {} 0 - 0", fields(1, 0)));
    asked(&format!("packet.read {padded}"), "refused 4");
    let written = format!("ok 20 {padded}0102030400000004");
    asked(&format!("packet.write {} 0 - 0 01020304 20 255", fields(1, 0)), &written);
}

// "*mtu 4, `000001 650102030405`: `7C850102`, `7C050304`, `7C4505`; mtu 2: none."
#[test]
fn fragments() {
    asked("h264.send 4 - - 000001650102030405", "ok - - 0 0 7c850102,7c050304,7c4505");
    asked("h264.send 2 - - 000001650102030405", "ok - - 1 0 -");
}

// "*67AA, 68BB, 650102 at mtu 9: `78 0002 67AA 0002 68BB`, `650102`; at 8 only `650102`."
#[test]
fn parameter_pair() {
    let frame = "00000167aa00000168bb000001650102";
    asked(&format!("h264.send 9 - - {frame}"), "ok - - 0 0 78000267aa000268bb,650102");
    asked(&format!("h264.send 8 - - {frame}"), "ok - - 0 1 650102");
    // "Under mtu 3 it is dropped"; nor does the pair fit.
    asked(&format!("h264.send 2 - - {frame}"), "ok - - 1 1 -");
}

// "`65 01 00 00 00 01 ..` after a start code: unit 6501."
#[test]
fn zeros_belong_to_the_code() {
    asked("h264.send 100 - - 00000165010000000141", "ok - - 0 0 6501,41");
    asked("h264.next 00000165010000000141 3", "at 5 4");
}

// "*`18 0001 41 05`: 18."
#[test]
fn half_a_size() {
    asked("h264.read 0 - 1800014105", "refused 18");
}

// "VP8 id 127, AABB, mtu 4: `90807FAA`, `80807FBB`; then id 128 gives none at 4,
// `90808080AA` first at 5."
#[test]
fn picture_ids() {
    asked("vp8.send 1 127 4 aabb", "ok 128 90807faa,80807fbb");
    asked("vp8.send 1 128 4 aabb", "ok 128 -");
    asked("vp8.send 1 128 5 aabb", "ok 129 90808080aa,80808080bb");
}

// "*VP8 `908005AA`, then `1007AABB`: id 7, payload AABB. `10AABB`: 4."
#[test]
fn fields_keep_old_values() {
    let fresh = "0 0 0 0 0 0 0 0 0 0 0 0 0";
    let with_id = "1 0 1 0 1 0 0 0 5 0 0 0 0";
    let next_id = "0 0 1 0 1 0 0 0 7 0 0 0 0";
    asked(&format!("vp8.read {fresh} 908005aa"), &format!("ok 3 {with_id}"));
    asked(&format!("vp8.read {with_id} 1007aabb"), &format!("ok 2 {next_id}"));
    asked(&format!("vp8.read {next_id} 10aabb"), &format!("refused 4 {next_id}"));
}
