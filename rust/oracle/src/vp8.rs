//! rtp's VP8 codec, taken in by `include!` so that the functions below reach the private picture
//! id.

include!("rtp/codecs/vp8/mod.rs");

impl Vp8Payloader {
    pub fn at(enable_picture_id: bool, picture_id: u16) -> Self {
        Vp8Payloader { enable_picture_id, picture_id }
    }

    pub fn picture_id(&self) -> u16 {
        self.picture_id
    }
}
