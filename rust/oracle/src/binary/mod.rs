//! The rows of a list in the binary form of ../rows: what the text says, and beside it what every
//! lent buffer and every state holds afterwards, refusals included.

mod h264;
mod rtp;
mod vp8;

use bytes::Bytes;
use rows::{Fields, PLACES};

use crate::refusal::Refusal;
use crate::text::Tokens;

/// Fields of the question, and of the answer.
type Both = Result<(Fields, Fields), Refusal>;

/// The row of a question with the answer that it got.
pub fn row(question: &str, answer: &str) -> Vec<u8> {
    let Ok((question, answer)) = both(question, answer) else {
        panic!("not a row: {question} {answer}");
    };
    rows::row(question, answer)
}

fn both(question: &str, answer: &str) -> Both {
    let (mut asked, told) = (Tokens::of(question), Told::of(answer)?);
    let name = asked.word()?;
    let fields = Fields::question(name);
    match name {
        "header.read" | "packet.read" => rtp::read(name, fields, asked, told),
        "h264.next" => h264::next(fields, asked, told),
        "h264.send" => h264::send(fields, asked, told),
        "h264.read" => h264::read(fields, asked, told),
        "vp8.send" => vp8::send(fields, asked, told),
        "vp8.read" => vp8::read(fields, asked, told),
        "h264.head" | "vp8.head" => Ok((fields.bytes(asked.bytes()?), told.flag()?)),
        "h264.tail" | "vp8.tail" => Ok((fields.number(asked.number()?), told.flag()?)),
        _ => rtp::on_record(name, fields, asked, told),
    }
}

/// An answer, taken apart up to what its question alone can tell.
struct Told<'a> {
    /// The refusal's number and what it carries.
    refusal: Option<[u64; 4]>,
    /// `ok`, or what else an answer begins with.
    word: &'a str,
    tokens: Tokens<'a>,
}

impl<'a> Told<'a> {
    fn of(answer: &'a str) -> Result<Self, Refusal> {
        let mut tokens = Tokens::of(answer);
        let word = tokens.word()?;
        let refusal = if word == "refused" { Some(refusal(&mut tokens)?) } else { None };
        Ok(Told { refusal, word, tokens })
    }

    /// The refusal, or these numbers.
    fn or(&self, numbers: [u64; 3]) -> Fields {
        let [x, y, z] = numbers;
        Fields::answer(self.refusal.unwrap_or([0, x, y, z]))
    }

    /// The next number: 0 beside a refusal.
    fn number(&mut self) -> Result<u64, Refusal> {
        self.refusal.map_or_else(|| self.tokens.number(), |_| Ok(0))
    }

    /// The next bytes: none beside a refusal.
    fn bytes(&mut self) -> Result<Bytes, Refusal> {
        self.refusal.map_or_else(|| self.tokens.bytes(), |_| Ok(Bytes::new()))
    }

    /// The next packets, one behind the other, and where each ends: none beside a refusal.
    fn packets(&mut self) -> Result<(Vec<u8>, Vec<u32>), Refusal> {
        let (mut out, mut ends) = (vec![], vec![]);
        let word = if self.refusal.is_none() { self.tokens.word()? } else { "-" };
        for packet in word.split(',').filter(|packet| *packet != "-") {
            out.extend(Tokens::of(packet).bytes()?);
            ends.push(out.len() as u32);
        }
        assert!(out.len() <= PLACES && ends.len() <= PLACES, "more than a replay has room for");
        Ok((out, ends))
    }

    /// `0` or `1`, which is the whole answer.
    fn flag(self) -> Result<Fields, Refusal> {
        let flag = u64::from(Tokens::of(self.word).flag()?);
        Ok(self.or([flag, 0, 0]))
    }
}

fn refusal(tokens: &mut Tokens) -> Result<[u64; 4], Refusal> {
    Ok(match tokens.number()? {
        17 => [17, tokens.number()?, tokens.number()?, 0],
        19 => [19, tokens.number()?, 0, 0],
        number => [number, 0, 0, 0],
    })
}

/// How many places of two buffers are lent: all, where the question does not say.
fn rooms(tokens: &mut Tokens) -> Result<[u64; 2], Refusal> {
    let all = tokens.at_end();
    let (first, second) = tokens.room()?;
    assert!(all || first.max(second) < PLACES, "more than a replay has room for");
    Ok([first, second].map(|room| room.min(PLACES) as u64))
}
