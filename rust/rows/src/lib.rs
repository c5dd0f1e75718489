//! Lists of questions with their answers in the binary form that crates/replay reads. README.md
//! gives the form.

/// What lent buffers hold beforehand, and the places of a record's arrays behind its counts.
pub const FILL: u8 = 0xA5;

/// How many places the lent buffers and tables of a replay have.
pub const PLACES: usize = 2_048;

/// Told in place of a refusal's number where a call neither refuses nor finds anything.
pub const NOTHING: u64 = 255;

/// The questions; the number of each is its place, counted from 1.
const NAMES: [&str; 24] = [
    "header.read",
    "header.size",
    "header.len",
    "header.write",
    "header.set",
    "header.del",
    "header.get",
    "header.ids",
    "packet.read",
    "packet.size",
    "packet.write",
    "h264.next",
    "h264.send",
    "h264.read",
    "h264.head",
    "h264.tail",
    "vp8.send",
    "vp8.read",
    "vp8.head",
    "vp8.tail",
    "joiner.open",
    "joiner.room",
    "joiner.join",
    "joiner.close",
];

/// Fields, one behind the other.
#[derive(Default)]
pub struct Fields(Vec<u8>);

impl Fields {
    /// The fields of a question begin with its number.
    pub fn question(name: &str) -> Self {
        let place = NAMES.iter().position(|known| *known == name);
        Fields::default().number(place.expect("a known question") as u64 + 1)
    }

    /// Those of an answer begin with 0 or the number of a refusal, and what is told beside it.
    pub fn answer(told: [u64; 4]) -> Self {
        Fields::default().numbers(told)
    }

    pub fn bytes(mut self, bytes: impl AsRef<[u8]>) -> Self {
        let bytes = bytes.as_ref();
        let len = u16::try_from(bytes.len()).expect("two bytes for a field's length");
        self.0.extend(len.to_be_bytes());
        self.0.extend(bytes);
        self
    }

    pub fn number(self, number: u64) -> Self {
        let bytes = number.to_be_bytes();
        self.bytes(&bytes[number.leading_zeros() as usize / 8..])
    }

    pub fn numbers(self, numbers: impl IntoIterator<Item = u64>) -> Self {
        numbers.into_iter().fold(self, Fields::number)
    }

    /// Four bytes for each.
    pub fn words(self, words: impl IntoIterator<Item = u32>) -> Self {
        let bytes: Vec<u8> = words.into_iter().flat_map(u32::to_be_bytes).collect();
        self.bytes(bytes)
    }
}

pub fn row(question: Fields, answer: Fields) -> Vec<u8> {
    Fields::default().bytes(Fields::default().bytes(question.0).bytes(answer.0).0).0
}

/// A row taken apart.
pub struct Row<'a> {
    pub question: Vec<&'a [u8]>,
    pub answer: Vec<&'a [u8]>,
}

impl<'a> Row<'a> {
    fn of(row: &'a [u8]) -> Self {
        match fields(row)[..] {
            [question, answer] => Row { question: fields(question), answer: fields(answer) },
            _ => panic!("a row is two fields"),
        }
    }

    pub fn name(&self) -> &'static str {
        NAMES[number(self.question[0]) as usize - 1]
    }
}

pub fn rows(list: &[u8]) -> Vec<Row<'_>> {
    fields(list).into_iter().map(Row::of).collect()
}

fn fields(mut bytes: &[u8]) -> Vec<&[u8]> {
    let mut fields = vec![];
    while let Some((len, rest)) = bytes.split_first_chunk() {
        let (field, rest) = rest.split_at(u16::from_be_bytes(*len).into());
        fields.push(field);
        bytes = rest;
    }
    assert!(bytes.is_empty(), "half a length");
    fields
}

pub fn number(field: &[u8]) -> u64 {
    field.iter().fold(0, |number, byte| number << 8 | u64::from(*byte))
}

pub fn words(field: &[u8]) -> Vec<u32> {
    field.chunks_exact(4).map(|word| number(word) as u32).collect()
}
