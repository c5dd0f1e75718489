//! Repeatable chance.

/// A xorshift generator.
pub struct Random(u64);

impl Random {
    pub fn new(seed: u64) -> Self {
        // Its state must not be 0, and small seeds should differ in many bits.
        Random(seed.wrapping_mul(0x9E37_79B9_7F4A_7C15).max(1))
    }

    fn next(&mut self) -> u64 {
        self.0 ^= self.0 << 13;
        self.0 ^= self.0 >> 7;
        self.0 ^= self.0 << 17;
        self.0
    }

    pub fn below(&mut self, bound: usize) -> usize {
        (self.next() >> 16) as usize % bound
    }

    pub fn one_in(&mut self, bound: usize) -> bool {
        self.below(bound) == 0
    }

    pub fn pick<T: Copy>(&mut self, from: &[T]) -> T {
        from[self.below(from.len())]
    }

    pub fn byte(&mut self) -> u8 {
        self.below(256) as u8
    }

    pub fn bytes(&mut self, len: usize) -> Vec<u8> {
        (0..len).map(|_| self.byte()).collect()
    }

    /// A copy with a byte changed, a bit flipped, a byte more or less, or the end cut off.
    pub fn damaged(&mut self, good: &[u8]) -> Vec<u8> {
        let mut bytes = good.to_vec();
        if bytes.is_empty() {
            return self.bytes(1);
        }
        let place = self.below(bytes.len());
        match self.below(5) {
            0 => bytes[place] = self.byte(),
            1 => bytes[place] ^= 1 << self.below(8),
            2 => bytes.insert(place, self.byte()),
            3 => drop(bytes.remove(place)),
            _ => bytes.truncate(place),
        }
        bytes
    }
}

/// Every string of this length over these bytes.
pub fn strings(alphabet: &[u8], len: usize) -> Vec<Vec<u8>> {
    let mut strings = vec![vec![]];
    for _ in 0..len {
        let longer = |string: &Vec<u8>, byte: &u8| [string.as_slice(), &[*byte]].concat();
        strings = strings
            .iter()
            .flat_map(|string| alphabet.iter().map(move |byte| longer(string, byte)))
            .collect();
    }
    strings
}
