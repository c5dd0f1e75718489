//! The published vectors in `vectors/`: hex strings, under the names of their tests.

pub const PACKET: &str = include_str!("../../../vectors/packet.txt");
pub const H264: &str = include_str!("../../../vectors/h264.txt");
pub const VP8: &str = include_str!("../../../vectors/vp8.txt");

pub fn each(vectors: &str) -> impl Iterator<Item = &str> {
    vectors.lines().filter(|line| !line.starts_with('#'))
}
