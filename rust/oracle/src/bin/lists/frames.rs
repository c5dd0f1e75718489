//! Bytes that try a search for start codes which skips some and looks at sixteen at a time.

use crate::random::Random;

/// So many bytes above 1, each unlike those around it.
pub fn above_one(len: usize) -> Vec<u8> {
    (0..len).map(|place| 2 + (place * 37 % 254) as u8).collect()
}

/// Runs of up to 40 zeros or bytes above 1, and start codes with one of these heads behind each; few
/// other bytes between them. At least so many bytes.
pub fn runs(random: &mut Random, heads: &[u8], least: usize) -> Vec<u8> {
    let mut bytes = vec![];
    while bytes.len() < least {
        match random.below(4) {
            0 => bytes.extend(vec![0; 1 + random.below(40)]),
            1 => bytes.extend(vec![random.pick(&[2, 0x41]); 1 + random.below(40)]),
            _ => {
                bytes.extend(vec![0; 2 + random.below(3)]);
                bytes.extend([1, random.pick(heads)]);
            }
        }
        let few = random.below(4);
        bytes.extend((0..few).map(|_| random.pick(&[0, 0, 1, 2, 0x41])));
    }
    bytes
}
