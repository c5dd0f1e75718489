//! Headers and packets.

use rows::{Fields, FILL, NOTHING, PLACES};

use super::{Both, Told};
use crate::header::{Extension, Header};
use crate::record;
use crate::refusal::Refusal;
use crate::text::Tokens;

/// "A refusal returns its number, no record", which is the blank one.
pub fn read(name: &str, fields: Fields, mut asked: Tokens, mut told: Told) -> Both {
    let question = fields.bytes(asked.bytes()?);
    let place = told.number()?;
    let len = if name == "packet.read" { told.number()? } else { 0 };
    let header = after(&mut told, Header::default())?;
    Ok((question, places(told.or([place, len, 0]), &header, 0, 0)))
}

/// The record that is answered, or beside a refusal another.
fn after(told: &mut Told, other: Header) -> Result<Header, Refusal> {
    told.refusal.map_or_else(|| record::read(&mut told.tokens), |_| Ok(other))
}

/// A number, a fill and bytes, each for the questions that have one, and the record.
pub fn on_record(name: &str, fields: Fields, mut asked: Tokens, mut told: Told) -> Both {
    let header = record::read(&mut asked)?;
    let bytes = if name.starts_with("packet.") { asked.bytes()? } else { Default::default() };
    let (number, fill, bytes) = match name {
        "header.write" | "packet.write" => (asked.number()?, asked.number()?, bytes),
        "header.set" => (asked.number()?, 0, asked.bytes()?),
        "header.del" | "header.get" => (asked.number()?, 0, bytes),
        _ => (0, 0, bytes),
    };
    assert!(number <= PLACES as u64, "more than a replay has room for");
    let question = fields.number(number).number(fill).bytes(bytes);
    let answer = match name {
        "header.write" | "packet.write" => {
            let count = told.number()?;
            told.or([count, 0, 0]).bytes(told.bytes()?)
        }
        "header.set" | "header.del" => changed(&header, told)?,
        "header.get" => got(&header, number, told)?,
        "header.ids" => {
            let ids = told.bytes()?;
            told.or([ids.len() as u64, 0, 0]).bytes(ids)
        }
        _ => {
            let length = told.number()?;
            told.or([length, 0, 0])
        }
    };
    Ok((whole(question, &header), answer))
}

/// The elements are laid out anew, with zeros behind them; the places of the sources stay as they came, and beside a refusal all do.
fn changed(before: &Header, mut told: Told) -> Result<Fields, Refusal> {
    let behind = if told.refusal.is_some() { FILL } else { 0 };
    let header = after(&mut told, before.clone())?;
    Ok(places(told.or([0, 0, 0]), &header, FILL, behind))
}

/// An element's data by their place among the data of all.
fn got(header: &Header, id: u64, mut told: Told) -> Result<Fields, Refusal> {
    if told.word == "none" {
        return Ok(Fields::answer([NOTHING, 0, 0, 0]));
    }
    let got = told.bytes()?;
    let is_other = |element: &&Extension| u64::from(element.id) != id;
    let others = header.extensions.iter().take_while(is_other);
    let place: usize = others.map(|element| element.payload.len()).sum();
    assert!(told.refusal.is_some() || data(header)[place..].starts_with(&got));
    let place = if told.refusal.is_some() { 0 } else { place };
    Ok(told.or([place as u64, got.len() as u64, 0]))
}

fn numbers(header: &Header) -> [u64; 12] {
    [
        header.version.into(),
        header.padding.into(),
        header.extension.into(),
        header.marker.into(),
        header.payload_type.into(),
        header.sequence_number.into(),
        header.timestamp.into(),
        header.ssrc.into(),
        header.csrc.len() as u64,
        header.extension_profile.into(),
        header.extensions.len() as u64,
        header.extensions_padding as u64,
    ]
}

fn ids(header: &Header) -> Vec<u8> {
    header.extensions.iter().map(|element| element.id).collect()
}

fn lens(header: &Header) -> Vec<u32> {
    header.extensions.iter().map(|element| element.payload.len() as u32).collect()
}

fn data(header: &Header) -> Vec<u8> {
    header.extensions.iter().flat_map(|element| element.payload.clone()).collect()
}

fn whole(fields: Fields, header: &Header) -> Fields {
    let fields = fields.numbers(numbers(header)).words(header.csrc.clone());
    fields.bytes(ids(header)).words(lens(header)).bytes(data(header))
}

/// The record of an answer, as far as its arrays have places, and what stands in them behind the sources and behind the elements.
fn places(fields: Fields, header: &Header, sources: u8, elements: u8) -> Fields {
    let mut data = data(header);
    data.truncate(1_024);
    let fields = fields.numbers(numbers(header)).words(header.csrc.iter().copied().take(15));
    let fields = fields.bytes(ids(header).get(..32).unwrap_or(&ids(header)));
    let fields = fields.words(lens(header).into_iter().take(32)).bytes(data);
    let word = |bytes| u64::from(u32::from_be_bytes(bytes));
    let fields = fields.number(word([sources; 4])).number(word([0, 0, elements, elements]));
    fields.number(elements.into())
}
