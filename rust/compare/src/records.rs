//! A header in both forms.

use oracle::header::{Extension, Header as Theirs};
use rtp_rattle::header::{Extensions, Header as Ours};

/// The record of a header; `behind` is what its arrays hold behind their counts. A count may pass its array, which makes the record one
/// outside the limits.
pub fn ours(theirs: &Theirs, behind: u8) -> Ours {
    let mut csrc = [u32::from_be_bytes([behind; 4]); 15];
    csrc.iter_mut().zip(&theirs.csrc).for_each(|(place, source)| *place = *source);
    Ours {
        version: theirs.version,
        padding: theirs.padding,
        extension: theirs.extension,
        marker: theirs.marker,
        payload_type: theirs.payload_type,
        sequence_number: theirs.sequence_number,
        timestamp: theirs.timestamp,
        ssrc: theirs.ssrc,
        csrc_count: theirs.csrc.len(),
        csrc,
        extension_profile: theirs.extension_profile,
        extensions: elements(&theirs.extensions, behind),
        extensions_padding: theirs.extensions_padding,
    }
}

fn elements(theirs: &[Extension], behind: u8) -> Extensions {
    let mut ours = Extensions {
        count: theirs.len(),
        ids: [behind; 32],
        lens: [u16::from_be_bytes([behind; 2]); 32],
        bytes: [behind; 1024],
    };
    let mut at = 0;
    for (place, element) in theirs.iter().take(32).enumerate() {
        let len = element.payload.len();
        ours.ids[place] = element.id;
        ours.lens[place] = len.min(65_535) as u16;
        let kept = len.min(1024 - at);
        ours.bytes[at..at + kept].copy_from_slice(&element.payload[..kept]);
        at += kept;
    }
    ours
}

/// Whether both say the same; what lies behind the counts says nothing.
pub fn same(ours: &Ours, theirs: &Theirs) -> bool {
    ours.version == theirs.version
        && ours.padding == theirs.padding
        && ours.extension == theirs.extension
        && ours.marker == theirs.marker
        && ours.payload_type == theirs.payload_type
        && ours.sequence_number == theirs.sequence_number
        && ours.timestamp == theirs.timestamp
        && ours.ssrc == theirs.ssrc
        && ours.csrc_count == theirs.csrc.len()
        && ours.csrcs() == theirs.csrc
        && ours.extension_profile == theirs.extension_profile
        && same_elements(&ours.extensions, &theirs.extensions)
        && ours.extensions_padding == theirs.extensions_padding
}

fn same_elements(ours: &Extensions, theirs: &[Extension]) -> bool {
    let mut rest = &ours.bytes[..];
    ours.count == theirs.len()
        && theirs.iter().enumerate().all(|(place, element)| {
            let len = element.payload.len();
            let Some((data, behind)) = rest.split_at_checked(len) else { return false };
            rest = behind;
            ours.ids[place] == element.id
                && usize::from(ours.lens[place]) == len
                && *data == element.payload[..]
        })
}
