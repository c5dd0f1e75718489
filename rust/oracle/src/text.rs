//! The tokens of questions and answers: decimal numbers, bytes in hex with `-` for none.

use std::str::{FromStr, Split};

use bytes::Bytes;

use crate::refusal::Refusal;

/// Twice the largest frame: a longer buffer is lent by no question, and would only exhaust the
/// memory.
const LONGEST_BUFFER: usize = 2 * 16_777_216;

pub(crate) struct Tokens<'a>(Split<'a, char>);

impl<'a> Tokens<'a> {
    pub fn of(question: &'a str) -> Self {
        Tokens(question.split(' '))
    }

    pub fn word(&mut self) -> Result<&'a str, Refusal> {
        self.0.next().ok_or(Refusal::BadQuestion)
    }

    pub fn number<T: FromStr>(&mut self) -> Result<T, Refusal> {
        let word = self.word()?;
        let digits = word.bytes().all(|byte| byte.is_ascii_digit());
        let number = word.parse().ok().filter(|_| digits);
        number.ok_or(Refusal::BadQuestion)
    }

    pub fn flag(&mut self) -> Result<bool, Refusal> {
        match self.word()? {
            "0" => Ok(false),
            "1" => Ok(true),
            _ => Err(Refusal::BadQuestion),
        }
    }

    pub fn bytes(&mut self) -> Result<Bytes, Refusal> {
        from_hex(self.word()?).ok_or(Refusal::BadQuestion)
    }

    pub fn buffer_len(&mut self) -> Result<usize, Refusal> {
        let len = self.number()?;
        (len <= LONGEST_BUFFER).then_some(len).ok_or(Refusal::BadQuestion)
    }

    /// The lengths of two lent buffers; enough for everything where the question names none.
    pub fn room(&mut self) -> Result<(usize, usize), Refusal> {
        if self.at_end() {
            return Ok((usize::MAX, usize::MAX));
        }
        Ok((self.number()?, self.number()?))
    }

    pub fn at_end(&self) -> bool {
        self.0.clone().next().is_none()
    }
}

fn from_hex(word: &str) -> Option<Bytes> {
    if word == "-" {
        return Some(Bytes::new());
    }
    if word.is_empty() || !word.len().is_multiple_of(2) {
        return None;
    }
    let pairs = word.as_bytes().chunks(2);
    pairs.map(|pair| Some(digit(pair[0])? << 4 | digit(pair[1])?)).collect()
}

fn digit(character: u8) -> Option<u8> {
    match character {
        b'0'..=b'9' => Some(character - b'0'),
        b'a'..=b'f' => Some(character - b'a' + 10),
        _ => None,
    }
}

pub fn hex(bytes: &[u8]) -> String {
    if bytes.is_empty() {
        return "-".to_string();
    }
    let digits = bytes.iter().flat_map(|byte| [byte >> 4, byte & 15]);
    digits.map(|digit| char::from(b"0123456789abcdef"[usize::from(digit)])).collect()
}

pub(crate) fn packets(packets: &[Bytes]) -> String {
    if packets.is_empty() {
        return "-".to_string();
    }
    let each: Vec<String> = packets.iter().map(|packet| hex(packet)).collect();
    each.join(",")
}
