//! What a safe caller can pass, however odd, is answered or refused: empty slices, records full of ones, buffers of every size.

use rtp_rattle::codecs::h264::{H264Packet, H264Payloader};
use rtp_rattle::codecs::vp8::{Vp8Packet, Vp8Payloader};
use rtp_rattle::header::{Extensions, Header};
use rtp_rattle::packet::Packet;
use rtp_rattle::{Error, Joiner};

/// Every number of the record as large as it can be.
fn full() -> Header {
    Header {
        version: u8::MAX,
        padding: true,
        extension: true,
        marker: true,
        payload_type: u8::MAX,
        sequence_number: u16::MAX,
        timestamp: u32::MAX,
        ssrc: u32::MAX,
        csrc_count: usize::MAX,
        csrc: [u32::MAX; 15],
        extension_profile: u16::MAX,
        extensions: Extensions {
            count: usize::MAX,
            ids: [u8::MAX; 32],
            lens: [u16::MAX; 32],
            bytes: [u8::MAX; 1024],
        },
        extensions_padding: usize::MAX,
    }
}

#[test]
fn records_outside_the_limits() {
    let mut header = full();
    let mut buf = [0xEE; 64];
    assert_eq!(header.marshal_size(), Err(Error::OutsideDomain));
    assert_eq!(header.marshal_to(&mut buf), Err(Error::OutsideDomain));
    assert_eq!(header.get_extension(255), Err(Error::OutsideDomain));
    assert_eq!(header.get_extension_ids(), Err(Error::OutsideDomain));
    assert_eq!(header.get_extension_payload_len(), Err(Error::OutsideDomain));
    assert_eq!(header.set_extension(1, b"a"), Err(Error::OutsideDomain));
    assert_eq!(header.del_extension(255), Err(Error::OutsideDomain));
    assert_eq!(header.csrcs(), [u32::MAX; 15]);
    let packet = Packet { header, payload: b"a" };
    assert_eq!(packet.marshal_size(), Err(Error::OutsideDomain));
    assert_eq!(packet.marshal_to(&mut buf), Err(Error::OutsideDomain));
    assert_eq!((header, buf), (full(), [0xEE; 64]));

    let mut ends = [7; 4];
    let mut payloader = Vp8Payloader { enable_picture_id: true, picture_id: 32768 };
    assert!(payloader.payload(100, b"a", &mut buf, &mut ends).is_err());
    let mut fields = Vp8Packet { picture_id: 32768, ..Vp8Packet::default() };
    assert_eq!(fields.depacketize(b"\x90\x80\x05\xAA"), Err(Error::OutsideDomain));
    assert_eq!((fields.x, buf, ends), (0, [0xEE; 64], [7; 4]));
}

#[test]
fn empty_slices() {
    assert_eq!(Header::unmarshal(&[]), Err(Error::ErrHeaderSizeInsufficient));
    assert_eq!(Packet::unmarshal(&[]), Err(Error::ErrHeaderSizeInsufficient));
    assert_eq!(Header::default().marshal_to(&mut []), Err(Error::ErrBufferTooSmall));
    assert_eq!(H264Payloader::new().payload(100, &[], &mut [], &mut []).unwrap().len(), 0);
    assert!(H264Payloader::new().payload(100, b"abc", &mut [], &mut []).is_err());
    assert_eq!(H264Packet::new(false, 0).depacketize(&[], &mut []), Err(Error::ErrShortPacket));
    assert_eq!(H264Packet::is_partition_head(&[]), Ok(false));
    assert_eq!(Vp8Payloader::default().payload(100, &[], &mut [], &mut []).unwrap().len(), 0);
    assert_eq!(Vp8Packet::default().depacketize(&[]), Err(Error::ErrShortPacket));
    assert_eq!(Joiner::open(0, 0, 0).join(&[], &mut []), Err(Error::ErrHeaderSizeInsufficient));
}

#[test]
fn mtu_and_lengths_outside_the_limits() {
    let long = vec![0x41; 65536];
    let (mut out, mut ends) = (vec![0xEE; 1 << 18], [0; 4]);
    assert_eq!(Packet::unmarshal(&long), Err(Error::OutsideDomain));
    let packet = Packet { header: Header::default(), payload: &long };
    assert_eq!(packet.marshal_to(&mut out), Err(Error::OutsideDomain));
    assert_eq!(H264Packet::new(false, 0).depacketize(&long, &mut out), Err(Error::OutsideDomain));
    assert_eq!(H264Packet::is_partition_head(&long), Err(Error::OutsideDomain));
    assert_eq!(Vp8Packet::is_partition_head(&long), Err(Error::OutsideDomain));
    for mtu in [65536, usize::MAX] {
        let refused =
            H264Payloader::new().payload(mtu, b"abc", &mut out, &mut ends).map(|p| p.len());
        assert_eq!(refused, Err(Error::OutsideDomain));
        let refused =
            Vp8Payloader::default().payload(mtu, b"abc", &mut out, &mut ends).map(|p| p.len());
        assert_eq!(refused, Err(Error::OutsideDomain));
    }
    let mut header = Header::default();
    assert_eq!(header.set_extension(1, &long), Err(Error::OverLimits));
    assert_eq!(header, Header::default());
}

/// All buffers from none to enough: refused with 5, and nothing written, until there is room.
#[test]
fn every_room() {
    let frame = b"\x00\x00\x01\x67\xAA\x00\x00\x01\x68\xBB\x00\x00\x01\x65\x01\x02\x03\x04\x05\x06";
    for room in 0..=25 {
        for rows in 0..=4 {
            let (mut out, mut ends) = (vec![0xEE; room], vec![9; rows]);
            let sent = H264Payloader::new()
                .payload(9, frame, &mut out, &mut ends)
                .map(Vec::from_iter)
                .map(|p| p.len());
            if room >= 16 && rows >= 2 {
                assert_eq!(sent, Ok(2));
            } else {
                assert_eq!(sent, Err(Error::ErrBufferTooSmall));
                assert_eq!((out, ends), (vec![0xEE; room], vec![9; rows]));
            }
        }
    }
}

/// A header written and read back, through all numbers of contributing sources.
#[test]
fn round_trip() {
    for count in 0..=15 {
        let mut header = Header {
            version: 2,
            marker: true,
            payload_type: 127,
            csrc_count: count,
            ..Header::default()
        };
        header.csrc[..count].fill(0xDEAD_BEEF);
        header.set_extension(3, b"abc").unwrap();
        header.set_extension(14, &[9; 16]).unwrap();
        let packet = Packet { header, payload: b"payload" };
        let mut buf = [0xEE; 256];
        let n = packet.marshal_to(&mut buf).unwrap();
        let read = Packet::unmarshal(&buf[..n]).unwrap();
        assert_eq!(read.payload, b"payload");
        assert_eq!(read.header.csrcs(), header.csrcs());
        assert_eq!(read.header.get_extension(14), Ok(Some(&[9; 16][..])));
        assert_eq!(Header { extensions_padding: header.extensions_padding, ..read.header }, header);
    }
}
