//! VP8.

use rows::Fields;

use super::{rooms, Both, Told};
use crate::refusal::Refusal;
use crate::text::Tokens;

pub fn send(fields: Fields, mut asked: Tokens, mut told: Told) -> Both {
    let (enable, id): (u64, u64) = (asked.number()?, asked.number()?);
    let question = fields.number(asked.number()?).bytes(asked.bytes()?);
    let question = question.numbers(rooms(&mut asked)?).number(enable).number(id);
    let after = if told.refusal.is_some() { id } else { told.number()? };
    let (out, ends) = told.packets()?;
    let answer = told.or([ends.len() as u64, out.len() as u64, 0]).bytes(out).words(ends);
    Ok((question, answer.number(enable).number(after)))
}

/// "VP8's 4 .. leaves the fields read so far"; beside 8 they stay as they came.
pub fn read(fields: Fields, mut asked: Tokens, mut told: Told) -> Both {
    let before = descriptor(&mut asked)?;
    let question = fields.bytes(asked.bytes()?).numbers(before.clone());
    let place = told.number()?;
    let after = if told.tokens.at_end() { before } else { descriptor(&mut told.tokens)? };
    Ok((question, told.or([place, 0, 0]).numbers(after)))
}

/// The 13 fields.
fn descriptor(tokens: &mut Tokens) -> Result<Vec<u64>, Refusal> {
    (0..13).map(|_| tokens.number()).collect()
}
