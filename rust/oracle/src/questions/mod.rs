//! The questions, by subject.

mod h264;
mod header;
mod packet;
mod vp8;

use crate::refusal::Refusal;
use crate::text::Tokens;
use crate::Judge;

type Answer = Result<String, Refusal>;

pub fn answer(judge: Judge, question: &str) -> Answer {
    let mut tokens = Tokens::of(question);
    let name = tokens.word()?.split_once('.');
    let answer = match name.ok_or(Refusal::BadQuestion)? {
        ("header", call) => header::answer(judge, call, &mut tokens),
        ("packet", call) => packet::answer(judge, call, &mut tokens),
        ("h264", call) => h264::answer(judge, call, &mut tokens),
        ("vp8", call) => vp8::answer(judge, call, &mut tokens),
        _ => Err(Refusal::BadQuestion),
    };
    if tokens.at_end() {
        answer
    } else {
        Err(Refusal::BadQuestion)
    }
}
