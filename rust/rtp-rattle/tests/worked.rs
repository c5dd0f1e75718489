//! The paper's worked packets, in its order, through the binding.

use rtp_rattle::codecs::h264::{H264Packet, H264Payloader};
use rtp_rattle::codecs::vp8::{Vp8Packet, Vp8Payloader};
use rtp_rattle::header::{Header, EXTENSION_PROFILE_ONE_BYTE};
use rtp_rattle::joiner::{Closed, Joined};
use rtp_rattle::packet::Packet;
use rtp_rattle::{Error, Joiner};

const H: [u8; 12] = *b"\x80\x60\x00\x01\x00\x00\x00\x02\x00\x00\x00\x03";

/// H with another first byte, and bytes behind it.
fn packet(first: u8, rest: &[u8]) -> Vec<u8> {
    [&[first], &H[1..], rest].concat()
}

/// X: H with first byte 90.
fn extended(rest: &[u8]) -> Vec<u8> {
    packet(0x90, rest)
}

/// H with another sequence number, and a payload.
fn numbered(number: u16, payload: &[u8]) -> Vec<u8> {
    stamped(number, 2, payload)
}

/// H with another sequence number and timestamp, and a payload.
fn stamped(number: u16, time: u32, payload: &[u8]) -> Vec<u8> {
    [&H[..2], &number.to_be_bytes(), &time.to_be_bytes(), &H[8..], payload].concat()
}

/// The payloads of a frame that a sender cuts.
fn sent(sender: &mut H264Payloader, mtu: usize, frame: &[u8]) -> Vec<Vec<u8>> {
    let (mut out, mut ends) = ([0xEE; 64], [0; 8]);
    sender.payload(mtu, frame, &mut out, &mut ends).unwrap().map(<[u8]>::to_vec).collect()
}

fn cut(mtu: usize, frame: &[u8]) -> Vec<Vec<u8>> {
    sent(&mut H264Payloader::new(), mtu, frame)
}

// "*H: version 2, type 96, empty payload. *Its first 11 bytes: 1."
#[test]
fn smallest_header() {
    let read = Packet::unmarshal(&H).unwrap();
    let blank = Header::default();
    let header =
        Header { version: 2, payload_type: 96, sequence_number: 1, timestamp: 2, ssrc: 3, ..blank };
    assert_eq!(read, Packet { header, payload: &[] });
    assert_eq!(Header::unmarshal(&H), Ok((header, 12)));
    assert_eq!(header.csrcs(), []);
    assert_eq!(Packet::unmarshal(&H[..11]), Err(Error::ErrHeaderSizeInsufficient));
    assert_eq!(Header::unmarshal(&H[..11]), Err(Error::ErrHeaderSizeInsufficient));

    let mut buf = [0xEE; 13];
    assert_eq!(header.marshal_size(), Ok(12));
    assert_eq!(header.marshal_to(&mut buf), Ok(12));
    assert_eq!((&buf[..12], buf[12]), (&H[..], 0xEE));
    assert_eq!(header.marshal_to(&mut buf[..11]), Err(Error::ErrBufferTooSmall));
}

// "*X `BEDE 0001 10AA0000`: id 1, AA, padding 2."
#[test]
fn one_byte_element() {
    let (header, at) = Header::unmarshal(&extended(b"\xBE\xDE\x00\x01\x10\xAA\x00\x00")).unwrap();
    assert_eq!(
        (at, header.extension_profile, header.extensions_padding),
        (20, EXTENSION_PROFILE_ONE_BYTE, 2)
    );
    assert_eq!(header.get_extension_ids(), Ok(vec![1]));
    assert_eq!(header.get_extension(1), Ok(Some(&b"\xAA"[..])));
    assert_eq!(header.get_extension(2), Ok(None));
    assert_eq!(header.get_extension_payload_len(), Ok(2));
}

// "*X `BEDE 0001 F0AABBCC DD`: no element, payload AABBCCDD."
#[test]
fn id_15_ends_reading() {
    let raw = extended(b"\xBE\xDE\x00\x01\xF0\xAA\xBB\xCC\xDD");
    let read = Packet::unmarshal(&raw).unwrap();
    assert_eq!(read.header.get_extension_ids(), Ok(vec![]));
    assert_eq!(read.payload, b"\xAA\xBB\xCC\xDD");
}

// "*X `BEDE 0001 00000012 01020304`: element 010203, payload 04. Ending `0102`: 3."
#[test]
fn element_past_the_block() {
    let raw = extended(b"\xBE\xDE\x00\x01\x00\x00\x00\x12\x01\x02\x03\x04");
    let read = Packet::unmarshal(&raw).unwrap();
    assert_eq!(read.header.get_extension(1), Ok(Some(&b"\x01\x02\x03"[..])));
    assert_eq!(read.payload, b"\x04");
    let raw = extended(b"\xBE\xDE\x00\x01\x00\x00\x00\x12\x01\x02");
    assert_eq!(Packet::unmarshal(&raw), Err(Error::ElementPastPacket));
}

// "Set id 1 to 2 bytes on an empty header: padding 1; to 1 byte: 2; delete: 0.
// First set of id 200 to 2 bytes: taken; writing it: 8."
#[test]
fn setting() {
    let mut header = Header::default();
    assert_eq!(header.del_extension(1), Err(Error::ErrHeaderExtensionsNotEnabled));
    assert_eq!(header, Header::default());
    header.set_extension(1, b"\xAA\xBB").unwrap();
    assert_eq!(
        (header.extensions_padding, header.get_extension(1)),
        (1, Ok(Some(&b"\xAA\xBB"[..])))
    );
    header.set_extension(1, b"\xCC").unwrap();
    assert_eq!((header.extensions_padding, header.get_extension(1)), (2, Ok(Some(&b"\xCC"[..]))));
    header.del_extension(1).unwrap();
    assert_eq!((header.extensions_padding, header.get_extension(1)), (0, Ok(None)));
    assert_eq!(header.del_extension(1), Err(Error::ErrHeaderExtensionNotFound));

    let mut high = Header::default();
    high.set_extension(200, b"\xAA\xBB").unwrap();
    let mut buf = [0xEE; 64];
    assert_eq!(high.marshal_to(&mut buf), Err(Error::OutsideDomain));
    assert_eq!(buf, [0xEE; 64]);
}

// "*Padding bit, payload 00: payload 00. *Empty: 4. *Writing 01020304 appends 00000004."
#[test]
fn padding() {
    assert_eq!(Packet::unmarshal(&packet(0xA0, b"\x00")).unwrap().payload, b"\x00");
    assert_eq!(Packet::unmarshal(&packet(0xA0, b"")), Err(Error::ErrShortPacket));

    let (header, _) = Header::unmarshal(&packet(0xA0, b"")).unwrap();
    let padded = Packet { header, payload: b"\x01\x02\x03\x04" };
    let mut buf = [0xEE; 20];
    assert_eq!(padded.marshal_size(), Ok(20));
    assert_eq!(padded.marshal_to(&mut buf), Ok(20));
    assert_eq!(buf[..], packet(0xA0, b"\x01\x02\x03\x04\x00\x00\x00\x04"));
}

// "*mtu 4, `000001 650102030405`: `7C850102`, `7C050304`, `7C4505`; mtu 2: none."
#[test]
fn fragments() {
    let frame = b"\x00\x00\x01\x65\x01\x02\x03\x04\x05";
    assert_eq!(cut(4, frame), [&b"\x7C\x85\x01\x02"[..], b"\x7C\x05\x03\x04", b"\x7C\x45\x05"]);
    assert_eq!(cut(2, frame), Vec::<Vec<u8>>::new());
}

// "*67AA, 68BB, 650102 at mtu 9: `78 0002 67AA 0002 68BB`, `650102`; at 8 only `650102`."
#[test]
fn parameter_pair() {
    let frame = b"\x00\x00\x01\x67\xAA\x00\x00\x01\x68\xBB\x00\x00\x01\x65\x01\x02";
    assert_eq!(cut(9, frame), [&b"\x78\x00\x02\x67\xAA\x00\x02\x68\xBB"[..], b"\x65\x01\x02"]);
    assert_eq!(cut(8, frame), [b"\x65\x01\x02"]);

    // over two frames the pair waits in the sender
    let mut sender = H264Payloader::new();
    assert_eq!(sent(&mut sender, 9, &frame[..10]), Vec::<Vec<u8>>::new());
    let pair = (&b"\x67\xAA"[..], &b"\x68\xBB"[..]);
    assert_eq!((sender.sps_nalu(), sender.pps_nalu()), pair);
    let refused = sender.payload(9, &frame[10..], &mut [], &mut []).map(|sent| sent.len());
    assert_eq!(refused, Err(Error::ErrBufferTooSmall));
    assert_eq!((sender.sps_nalu(), sender.pps_nalu()), pair);
    assert_eq!(
        sent(&mut sender, 9, &frame[10..]),
        [&b"\x78\x00\x02\x67\xAA\x00\x02\x68\xBB"[..], b"\x65\x01\x02"]
    );
    assert_eq!((sender.sps_nalu(), sender.pps_nalu()), (&b""[..], &b""[..]));
}

// "The frame call adds up how many units and pairs were dropped for the mtu .. at mtu 0 both are 0."
#[test]
fn dropped_for_the_mtu() {
    let frame = b"\x00\x00\x01\x67\xAA\x00\x00\x01\x68\xBB\x00\x00\x01\x65\x01\x02";
    let (mut out, mut ends) = ([0xEE; 64], [0; 8]);
    let mut counts = |mtu, frame: &[u8]| {
        let sent = H264Payloader::new().payload(mtu, frame, &mut out, &mut ends)?;
        Ok((sent.len(), sent.units_dropped(), sent.pairs_dropped()))
    };
    assert_eq!(counts(9, frame), Ok((2, 0, 0)));
    assert_eq!(counts(8, frame), Ok((1, 0, 1)));
    assert_eq!(counts(2, frame), Ok((0, 1, 1)));
    assert_eq!(counts(0, frame), Ok((0, 0, 0)));
    assert_eq!(counts(2, b""), Ok((0, 0, 0)));

    // a set of 1,025 bytes behind them: refused, and nothing is counted
    let over = [frame, &b"\x00\x00\x01\x67"[..], &[0xAA; 1024]].concat();
    assert_eq!(counts(2, &over), Err(Error::OverLimits));
}

// "`65 01 00 00 00 01 ..` after a start code: unit 6501."
#[test]
fn zeros_belong_to_the_code() {
    let frame = b"\x00\x00\x01\x65\x01\x00\x00\x00\x01\x41";
    assert_eq!(cut(100, frame), [&b"\x65\x01"[..], b"\x41"]);
}

// "*`18 0001 41 05`: 18." Beside it, what 17 and 19 carry.
#[test]
fn refusals_that_carry() {
    let mut reader = H264Packet::new(false, 16);
    let mut out = [0xEE; 32];
    assert_eq!(reader.depacketize(b"\x18\x00\x01\x41\x05", &mut out), Err(Error::StapASizeCut));
    let larger = Error::StapASizeLargerThanBuffer { size: 9, left: 2 };
    assert_eq!(reader.depacketize(b"\x18\x00\x09\x41\x05", &mut out), Err(larger));
    assert_eq!(reader.depacketize(b"\x1E\x00\x00", &mut out), Err(Error::NaluTypeIsNotHandled(30)));
    assert_eq!(out, [0xEE; 32]);
    assert_eq!((larger.number(), Error::NaluTypeIsNotHandled(30).number()), (17, 19));
}

// The fragments above, read: the unit behind a start code or a length, and its body.
#[test]
fn fragments_read() {
    let mut reader = H264Packet::new(false, 5);
    let mut out = [0xEE; 10];
    assert_eq!(reader.depacketize(b"\x7C\x85\x01\x02", &mut out), Ok(&b""[..]));
    assert_eq!((reader.gathered(), reader.body(b"\x7C\x85\x01\x02")), (&b"\x01\x02"[..], &b""[..]));
    assert_eq!(reader.depacketize(b"\x7C\x05\x03\x04", &mut out), Ok(&b""[..]));
    assert_eq!(
        reader.depacketize(b"\x7C\x45\x05", &mut out),
        Ok(&b"\x00\x00\x00\x01\x65\x01\x02\x03\x04\x05"[..])
    );
    assert_eq!(reader.body(b"\x7C\x45\x05"), b"\x01\x02\x03\x04\x05");
    assert_eq!(reader.gathered(), b"");

    let mut reader = H264Packet::new(true, 0);
    assert_eq!(
        reader.depacketize(b"\x65\x01\x02", &mut out),
        Ok(&b"\x00\x00\x00\x03\x65\x01\x02"[..])
    );
    assert_eq!(reader.body(b"\x65\x01\x02"), b"\x01\x02");
    assert_eq!(reader.depacketize(b"\x7C\x85\x01", &mut out), Err(Error::GatherTooSmall));
    assert_eq!(reader.body(b"\x7C\x85\x01"), b"");

    assert_eq!(H264Packet::is_partition_head(b"\x7C\x85\x01"), Ok(true));
    assert_eq!(H264Packet::is_partition_head(b"\x7C\x05\x01"), Ok(false));
    assert!(H264Packet::is_partition_tail(true) && !H264Packet::is_partition_tail(false));
}

// "VP8 id 127, AABB, mtu 4: `90807FAA`, `80807FBB`; then id 128 gives none at 4,
// `90808080AA` first at 5."
#[test]
fn picture_ids() {
    let mut payloader = Vp8Payloader { enable_picture_id: true, picture_id: 127 };
    let (mut out, mut ends) = ([0xEE; 16], [0; 4]);
    let payloads = payloader.payload(4, b"\xAA\xBB", &mut out, &mut ends).unwrap();
    assert_eq!(payloads.len(), 2);
    assert_eq!(payloads.collect::<Vec<_>>(), [&b"\x90\x80\x7F\xAA"[..], b"\x80\x80\x7F\xBB"]);
    assert_eq!(payloader.picture_id, 128);
    assert_eq!(payloader.payload(4, b"\xAA\xBB", &mut out, &mut ends).unwrap().len(), 0);
    assert_eq!(payloader.picture_id, 128);
    let mut payloads = payloader.payload(5, b"\xAA\xBB", &mut out, &mut ends).unwrap();
    assert_eq!(payloads.next(), Some(&b"\x90\x80\x80\x80\xAA"[..]));
    assert_eq!(payloader.picture_id, 129);
}

// "*VP8 `908005AA`, then `1007AABB`: id 7, payload AABB. `10AABB`: 4."
#[test]
fn fields_keep_old_values() {
    let mut fields = Vp8Packet::default();
    assert_eq!(fields.depacketize(b"\x90\x80\x05\xAA"), Ok(&b"\xAA"[..]));
    assert_eq!(fields.depacketize(b"\x10\x07\xAA\xBB"), Ok(&b"\xAA\xBB"[..]));
    assert_eq!(fields, Vp8Packet { s: 1, i: 1, picture_id: 7, ..Vp8Packet::default() });
    assert_eq!(fields.depacketize(b"\x10\xAA\xBB"), Err(Error::ErrShortPacket));
    assert_eq!(fields.picture_id, 7);
    // 4 bytes or more: the fields read so far stay
    assert_eq!(fields.depacketize(b"\x90\xE0\x09\x01"), Err(Error::ErrShortPacket));
    assert_eq!((fields.x, fields.picture_id, fields.l, fields.tl0_pic_idx), (1, 9, 1, 1));

    assert_eq!(Vp8Packet::is_partition_head(b"\x10"), Ok(true));
    assert_eq!(Vp8Packet::is_partition_head(b""), Ok(false));
    assert!(Vp8Packet::is_partition_tail(true) && !Vp8Packet::is_partition_tail(false));
}

const FRAGMENTS: [&[u8]; 3] = [b"\x7C\x85\x01\x02", b"\x7C\x05\x03\x04", b"\x7C\x45\x05"];

// "Joiner from 65535, the three FU-A above as 65535, 0, 1: one unit."
#[test]
fn joined() {
    let mut joiner = Joiner::open(3, 65535, 5);
    let mut out = [0xEE; 10];
    for (number, payload) in [65535, 0].into_iter().zip(FRAGMENTS) {
        let accepted = Joined::Accepted { first: number, count: 0, units: &[] };
        assert_eq!(joiner.join(&numbered(number, payload), &mut out), Ok(accepted));
    }
    assert_eq!(out, [0xEE; 10]);
    let shown = "Joiner { source: 3, awaited: 1, missed: 0, running: true, gathered: 4, \
                 marked: false, time: 2, closed: false }";
    assert_eq!(format!("{joiner:?}"), shown);
    let units = b"\x00\x00\x00\x01\x65\x01\x02\x03\x04\x05";
    let accepted = Joined::Accepted { first: 1, count: 0, units };
    assert_eq!(joiner.join(&numbered(1, FRAGMENTS[2]), &mut out), Ok(accepted));
    assert_eq!((joiner.source(), joiner.awaited(), joiner.missed()), (3, 2, 0));
}

// E3: "the rebuilt top bit is set if any fragment of the unit had it set."
#[test]
fn joined_with_a_mark() {
    for marks in 0..8_u8 {
        let (mut joiner, mut out, mut top) = (Joiner::open(3, 0, 5), [0xEE; 10], 0);
        for (number, payload) in (0..).zip(FRAGMENTS) {
            let mark = (marks >> number & 1) << 7;
            let mut packet = numbered(number, payload);
            packet[12] |= mark;
            top |= mark;
            let unit = [0, 0, 0, 1, 0x65 | top, 1, 2, 3, 4, 5];
            let units = if number == 2 { &unit[..] } else { &[] };
            let accepted = Joined::Accepted { first: number, count: 0, units };
            assert_eq!(joiner.join(&packet, &mut out), Ok(accepted));
            let marked = number < 2 && top != 0;
            assert!(format!("{joiner:?}").contains(&format!("marked: {marked}, ")));
        }
    }
}

// A jump drops the mark with its run, and a start fragment begins it anew; NRI and type are the last fragment's.
#[test]
fn marked_run_dropped() {
    for second in [1, 2] {
        let mut joiner = Joiner::open(3, 0, 5);
        let mut out = [0xEE; 10];
        joiner.join(&numbered(0, b"\xFC\x85\x01\x02"), &mut out).unwrap();
        joiner.join(&numbered(second, FRAGMENTS[0]), &mut out).unwrap();
        let units = b"\x00\x00\x00\x01\x27\x01\x02\x05";
        let accepted = Joined::Accepted { first: second + 1, count: 0, units };
        assert_eq!(joiner.join(&numbered(second + 1, b"\x3C\x47\x05"), &mut out), Ok(accepted));
    }
}

// Plain units and those of a STAP-A are handed out as they came.
#[test]
fn marked_units() {
    let mut joiner = Joiner::open(3, 0, 0);
    let mut out = [0xEE; 10];
    let units = b"\x00\x00\x00\x01\xE5\x01\x02";
    let accepted = Joined::Accepted { first: 0, count: 0, units };
    assert_eq!(joiner.join(&numbered(0, b"\xE5\x01\x02"), &mut out), Ok(accepted));
    let units = b"\x00\x00\x00\x01\x65\x01\x02";
    let accepted = Joined::Accepted { first: 1, count: 0, units };
    assert_eq!(joiner.join(&numbered(1, b"\xF8\x00\x03\x65\x01\x02"), &mut out), Ok(accepted));
}

// E4: "A continuation that follows without a gap but carries another timestamp is refused and changes nothing."
#[test]
fn joined_with_another_time() {
    for (time, other) in [(2, 9), (9, 2), (0, 1), (0, u32::MAX), (u32::MAX, 0), (2, 2 + (1 << 31))]
    {
        let (mut joiner, mut out) = (Joiner::open(3, 0, 5), [0xEE; 10]);
        for (number, payload) in (0..).zip(FRAGMENTS) {
            let before = format!("{joiner:?}");
            if number > 0 {
                let refused = joiner.join(&stamped(number, other, payload), &mut out);
                assert_eq!(refused, Err(Error::OtherTime));
                assert_eq!((format!("{joiner:?}"), out), (before, [0xEE; 10]));
            }
            let units: &[u8] =
                if number == 2 { b"\0\0\0\x01\x65\x01\x02\x03\x04\x05" } else { b"" };
            let accepted = Joined::Accepted { first: number, count: 0, units };
            assert_eq!(joiner.join(&stamped(number, time, payload), &mut out), Ok(accepted));
            let shown = if number < 2 { time } else { 0 };
            assert!(format!("{joiner:?}").contains(&format!("time: {shown}, ")));
        }
    }
    assert_eq!((Error::OtherTime.number(), Error::StartAndEnd.number()), (25, 21));
}

// A start fragment of another time replaces the run, and after a jump there is none to differ from. 21 comes before 25, 6 and 5 behind it.
#[test]
fn another_time_and_a_start_or_a_jump() {
    let (mut joiner, mut out) = (Joiner::open(3, 0, 5), [0xEE; 10]);
    joiner.join(&stamped(0, 2, FRAGMENTS[0]), &mut out).unwrap();
    assert_eq!(joiner.join(&stamped(1, 9, b"\x7C\xC5\x01"), &mut out), Err(Error::StartAndEnd));
    assert_eq!(joiner.join(&stamped(1, 9, FRAGMENTS[2]), &mut []), Err(Error::OtherTime));
    let long = b"\x7C\x05\x01\x02\x03\x04";
    assert_eq!(joiner.join(&stamped(1, 9, long), &mut out), Err(Error::OtherTime));
    assert_eq!(joiner.join(&stamped(1, 2, long), &mut out), Err(Error::GatherTooSmall));
    assert_eq!(joiner.join(&stamped(1, 2, FRAGMENTS[2]), &mut []), Err(Error::ErrBufferTooSmall));
    joiner.join(&stamped(1, 9, FRAGMENTS[0]), &mut out).unwrap();
    assert_eq!(joiner.join(&stamped(2, 2, FRAGMENTS[2]), &mut out), Err(Error::OtherTime));
    let accepted = Joined::Accepted { first: 2, count: 1, units: &[] };
    assert_eq!(joiner.join(&stamped(3, 2, FRAGMENTS[2]), &mut out), Ok(accepted));
    let accepted = Joined::Accepted { first: 4, count: 0, units: &[] };
    assert_eq!(joiner.join(&stamped(4, 7, FRAGMENTS[1]), &mut out), Ok(accepted));
}

// "65535, 1, close 2: none, missed 1."
#[test]
fn joined_with_a_hole() {
    let mut joiner = Joiner::open(3, 65535, 5);
    let mut out = [0xEE; 10];
    joiner.join(&numbered(65535, FRAGMENTS[0]), &mut out).unwrap();
    let accepted = Joined::Accepted { first: 0, count: 1, units: &[] };
    assert_eq!(joiner.join(&numbered(1, FRAGMENTS[2]), &mut out), Ok(accepted));
    assert_eq!(joiner.close(2), Ok(Closed { first: 2, count: 0 }));
    assert_eq!((joiner.missed(), joiner.is_closed(), out), (1, true, [0xEE; 10]));
    assert_eq!(joiner.join(&numbered(2, FRAGMENTS[0]), &mut out), Err(Error::AlreadyClosed));
    assert_eq!(joiner.close(2), Err(Error::AlreadyClosed));
}

// "*d 32,767 is forward, 32,768 Late."
#[test]
fn late() {
    let mut joiner = Joiner::open(3, 0, 5);
    let mut out = [0xEE; 10];
    assert_eq!(joiner.join(&numbered(32768, b"\x65\x01\x02"), &mut out), Ok(Joined::Late));
    assert_eq!((joiner.awaited(), joiner.missed()), (0, 0));
    let units = b"\x00\x00\x00\x01\x65\x01\x02";
    let accepted = Joined::Accepted { first: 0, count: 32767, units };
    assert_eq!(joiner.join(&numbered(32767, b"\x65\x01\x02"), &mut out), Ok(accepted));
    assert_eq!((joiner.awaited(), joiner.missed()), (32768, 32767));
    assert_eq!(joiner.close(0), Err(Error::ClosingTooFar));
    assert!(!joiner.is_closed());
}

// The joiner's other refusals, each leaving all as it was.
#[test]
fn joiner_refusals() {
    let mut joiner = Joiner::open(4, 1, 5);
    let mut out = [0xEE; 10];
    assert_eq!(joiner.join(&numbered(1, b"\x65\x01\x02"), &mut out), Err(Error::OtherSource));
    let mut joiner = Joiner::open(3, 1, 5);
    assert_eq!(joiner.join(&numbered(1, b"\x7C\xC5\x01"), &mut out), Err(Error::StartAndEnd));
    assert_eq!(
        joiner.join(&numbered(1, b"\x65\x01\x02"), &mut out[..6]),
        Err(Error::ErrBufferTooSmall)
    );
    assert_eq!((joiner.awaited(), out), (1, [0xEE; 10]));
}
