//! The two traits of rtp's packetizer that its codecs implement.

use std::fmt;

use bytes::Bytes;

use crate::error::Result;

pub trait Payloader: fmt::Debug {
    fn payload(&mut self, mtu: usize, b: &Bytes) -> Result<Vec<Bytes>>;
    fn clone_to(&self) -> Box<dyn Payloader + Send + Sync>;
}

pub trait Depacketizer {
    fn depacketize(&mut self, b: &Bytes) -> Result<Bytes>;
    fn is_partition_head(&self, payload: &Bytes) -> bool;
    fn is_partition_tail(&self, marker: bool, payload: &Bytes) -> bool;
}
