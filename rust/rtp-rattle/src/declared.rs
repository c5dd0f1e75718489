//! The records as `crates/` declares them, held to those of this crate: where a field differs in place or size, one is missing, or one is
//! new, this crate does not compile. The archive that is linked is made of the same `crates/`: `build.rs` sees to it.

use std::mem::offset_of;

use crate::codecs::vp8::{Vp8Packet, Vp8Payloader};
use crate::header::{Extensions, Header};
use crate::sys;

/// Word for word, by `build.rs`.
#[allow(dead_code)]
mod crates {
    include!(concat!(env!("OUT_DIR"), "/records.rs"));
}

/// How many bytes a field has.
const fn width<R, F>(_: fn(R) -> F) -> usize {
    size_of::<F>()
}

macro_rules! same {
    ($($theirs:ident is $ours:ty { $($field:ident),* })*) => {$(
        const _: () = {
            type Theirs = crates::$theirs;
            type Ours = $ours;
            assert!(size_of::<Theirs>() == size_of::<Ours>());
            assert!(align_of::<Theirs>() == align_of::<Ours>());
            $(
                assert!(offset_of!(Theirs, $field) == offset_of!(Ours, $field));
                assert!(width(|r: Theirs| r.$field) == width(|r: Ours| r.$field));
            )*
            // every field of both is named
            let _ = |Theirs { $($field: _),* }| {};
            let _ = |Ours { $($field: _),* }| {};
        };
    )*};
}

same! {
    Refused is sys::Refused { number, carried }
    RtpTest is sys::Test { refused, holds }
    Extensions is Extensions { count, ids, lens, bytes }
    Header is Header {
        version, padding, extension, marker, payload_type, sequence_number, timestamp, ssrc, csrc_count, csrc, extension_profile,
        extensions, extensions_padding
    }
    Fixed is sys::Fixed { version, padding, extension, marker, payload_type, sequence_number, timestamp, ssrc }
    Front is sys::Front { fixed, csrc_count, count, extensions_padding, extension_profile }
    RtpBytes is sys::Bytes { number, bytes }
    RtpHeaderFront is sys::HeaderFront { number, at, front }
    RtpHeaderRead is sys::HeaderRead { refused, at, header }
    RtpLength is sys::Length { refused, bytes }
    RtpHeaderChanged is sys::HeaderChanged { refused, header }
    RtpElement is sys::Element { refused, present, at, len }
    RtpIds is sys::Ids { refused, count, ids }
    RtpPacketFront is sys::PacketFront { number, at, len, front }
    RtpPacketRead is sys::PacketRead { refused, at, len, header }
    ParameterSet is sys::ParameterSet { bytes, len }
    H264Payloader is sys::H264Payloader { sps, pps }
    RtpH264Sent is sys::H264Sent { refused, packets, bytes, units_dropped, pairs_dropped, sender }
    LentPayloader is sys::LentPayloader { sps_len, pps_len }
    RtpH264LentSent is sys::H264LentSent { refused, packets, bytes, units_dropped, pairs_dropped, sender }
    H264Packet is sys::H264Packet { is_avc, gathered }
    RtpBody is sys::Body { lies_in, at, len }
    RtpH264Read is sys::H264Read { refused, bytes, body, packet }
    Vp8Payloader is Vp8Payloader { enable_picture_id, picture_id }
    RtpVp8Sent is sys::Vp8Sent { refused, packets, bytes, payloader }
    Vp8Packet is Vp8Packet { x, n, s, pid, i, l, t, k, picture_id, tl0_pic_idx, tid, y, key_idx }
    RtpVp8Read is sys::Vp8Read { refused, at, packet }
    Joiner is sys::Joiner { source, awaited, missed, running, gathered, time, marked, closed }
    RtpJoined is sys::Joined { refused, late, first, count, bytes }
    RtpClosed is sys::Closed { refused, first, count, joiner }
}

/// The first fields of a header are `sys::Fixed`: `Header::fixed` and `Header::store` go by it.
macro_rules! first {
    ($($field:ident),*) => {
        const _: () = {
            assert!(align_of::<sys::Fixed>() <= align_of::<Header>());
            $(
                assert!(offset_of!(sys::Fixed, $field) == offset_of!(Header, $field));
                assert!(width(|r: sys::Fixed| r.$field) == width(|r: Header| r.$field));
            )*
            let _ = |sys::Fixed { $($field: _),* }| {};
        };
    };
}

first! { version, padding, extension, marker, payload_type, sequence_number, timestamp, ssrc }
