//! rtp's H.264 codec, taken in by `include!` so that the functions below reach its private parts.

include!("rtp/codecs/h264/mod.rs");

impl H264Payloader {
    /// A sender with these sets saved; empty stands for none.
    pub fn holding(sps: Bytes, pps: Bytes) -> Self {
        H264Payloader { sps_nalu: some(sps), pps_nalu: some(pps) }
    }

    pub fn held(self) -> (Bytes, Bytes) {
        (self.sps_nalu.unwrap_or_default(), self.pps_nalu.unwrap_or_default())
    }

    /// Both sets, where both are saved.
    pub fn waiting(&self) -> Option<(&Bytes, &Bytes)> {
        self.sps_nalu.as_ref().zip(self.pps_nalu.as_ref())
    }

    /// Place and length of the first start code from `start` on.
    pub fn start_code(frame: &Bytes, start: usize) -> Option<(usize, usize)> {
        let (place, len) = Self::next_ind(frame, start);
        Some((place.try_into().ok()?, len.try_into().ok()?))
    }
}

impl H264Packet {
    /// A reader with this run gathered; empty stands for none.
    pub fn gathering(is_avc: bool, run: Bytes) -> Self {
        H264Packet { is_avc, fua_buffer: some(run).map(|run| BytesMut::from(&run[..])) }
    }

    pub fn gathered(self) -> Bytes {
        self.fua_buffer.unwrap_or_default().freeze()
    }
}

fn some(bytes: Bytes) -> Option<Bytes> {
    (!bytes.is_empty()).then_some(bytes)
}
