//! The calls on headers.

use std::fmt::Debug;

use bytes::Bytes;
use oracle::header::Header;
use rtp_rattle::header::{Extensions, Header as Record};
use util::marshal::{Marshal, MarshalSize, Unmarshal};

use crate::limits;
use crate::records::{ours, same};
use crate::show::Hex;
use crate::tally::Tally;
use crate::verdict::{Case, Theirs};

pub fn default(tally: &mut Tally) {
    let theirs = Theirs::sure(Header::default);
    Case::new("header default", ()).judge(tally, &Ok(Record::default()), &theirs, true, same);
}

pub fn unmarshal(tally: &mut Tally, packet: &Bytes) {
    let theirs = Theirs::of(|| {
        let mut rest = packet.clone();
        Header::unmarshal(&mut rest).map(|header| (header, packet.len() - rest.len()))
    });
    let case = |call| Case {
        before: limits::reading(packet),
        panic: limits::past(packet),
        ..Case::new(call, Hex(packet))
    };
    let answer = Record::unmarshal(packet);
    case("header unmarshal").judge(
        tally,
        &answer,
        &theirs,
        true,
        |(record, at), (header, place)| at == place && same(record, header),
    );
    let mut into = USED;
    let place = into.unmarshal_into(packet);
    let kept = into == USED;
    case("header unmarshal_into").judge(tally, &place, &theirs, kept, |at, (header, place)| {
        at == place && same(&into, header) && answer == Ok((into, *at))
    });
}

/// A record that is read into, with something in every place.
pub const USED: Record = Record {
    version: 1,
    padding: true,
    extension: true,
    marker: true,
    payload_type: 9,
    sequence_number: 0xA7A7,
    timestamp: 0xA7A7_A7A7,
    ssrc: 0xA7A7_A7A7,
    csrc_count: 15,
    csrc: [0xA7A7_A7A7; 15],
    extension_profile: 0xA7A7,
    extensions: Extensions { count: 32, ids: [0xA7; 32], lens: [0xA7A7; 32], bytes: [0xA7; 1024] },
    extensions_padding: 0xA7,
};

/// A header in both forms, to be asked about and changed.
#[derive(Debug)]
pub struct Pair {
    pub theirs: Header,
    pub ours: Record,
}

impl Pair {
    pub fn new(theirs: Header, behind: u8) -> Self {
        let ours = ours(&theirs, behind);
        Pair { theirs, ours }
    }

    fn case<I: Debug>(&self, call: &'static str, input: I) -> Case<I> {
        Case { before: limits::record(&self.theirs), ..Case::new(call, input) }
    }

    pub fn marshal_size(&self, tally: &mut Tally) {
        let theirs = Theirs::sure(|| self.theirs.marshal_size());
        let answer = self.ours.marshal_size();
        self.case("header marshal_size", &self.theirs).judge(
            tally,
            &answer,
            &theirs,
            true,
            |ours, theirs| ours == theirs,
        );
    }

    pub fn get_extension_payload_len(&self, tally: &mut Tally) {
        let theirs = Theirs::sure(|| self.theirs.get_extension_payload_len());
        let answer = self.ours.get_extension_payload_len();
        self.case("header get_extension_payload_len", &self.theirs).judge(
            tally,
            &answer,
            &theirs,
            true,
            |ours, theirs| ours == theirs,
        );
    }

    pub fn get_extension_ids(&self, tally: &mut Tally) {
        let theirs = Theirs::sure(|| self.theirs.get_extension_ids());
        let answer = self.ours.get_extension_ids();
        self.case("header get_extension_ids", &self.theirs).judge(
            tally,
            &answer,
            &theirs,
            true,
            |ours, theirs| ours == theirs,
        );
    }

    pub fn get_extension(&self, tally: &mut Tally, id: u8) {
        let theirs = Theirs::sure(|| self.theirs.get_extension(id));
        let answer = self.ours.get_extension(id);
        self.case("header get_extension", (&self.theirs, id)).judge(
            tally,
            &answer,
            &theirs,
            true,
            |ours, theirs| *ours == theirs.as_deref(),
        );
    }

    pub fn marshal_to(&self, tally: &mut Tally, len: usize, fill: u8) {
        let (mut ours, mut theirs) = (vec![fill; len], vec![fill; len]);
        let untouched = ours.clone();
        let told = Theirs::of(|| self.theirs.marshal_to(&mut theirs));
        let answer = self.ours.marshal_to(&mut ours);
        let case = Case {
            before: limits::written(&self.theirs),
            wrote: theirs != untouched,
            ..Case::new("header marshal_to", (&self.theirs, len, fill))
        };
        case.judge(tally, &answer, &told, ours == untouched, |count, told| {
            count == told && ours == theirs
        });
    }

    /// Both change, or neither.
    pub fn set_extension(&mut self, tally: &mut Tally, id: u8, payload: &Bytes) {
        let mut next = self.theirs.clone();
        let theirs = Theirs::of(|| next.set_extension(id, payload.clone()));
        let mut changed = self.ours;
        let answer = changed.set_extension(id, payload);
        let input = (&self.theirs, id, Hex(payload));
        let case = Case { after: limits::set(&next), ..self.case("header set_extension", input) };
        case.judge(tally, &answer, &theirs, changed == self.ours, |_, _| same(&changed, &next));
        self.step(answer.is_ok(), changed, next);
    }

    /// Both change, or neither.
    pub fn del_extension(&mut self, tally: &mut Tally, id: u8) {
        let mut next = self.theirs.clone();
        let theirs = Theirs::of(|| next.del_extension(id));
        let mut changed = self.ours;
        let answer = changed.del_extension(id);
        let input = (&self.theirs, id);
        let case = self.case("header del_extension", input);
        case.judge(tally, &answer, &theirs, changed == self.ours, |_, _| same(&changed, &next));
        self.step(answer.is_ok(), changed, next);
    }

    fn step(&mut self, answered: bool, ours: Record, theirs: Header) {
        if answered {
            *self = Pair { theirs, ours };
        }
    }
}
