//! The two words that the samples of a plane come in. What is drawn is drawn by one text for both, and what is refused is read by
//! one: this says where they differ.
use std::fmt::Debug;

use v_frame::pixel::Pixel;

use crate::random::Random;
use crate::stream::{Kind, Stream};

/// The kinds of records over samples of one word.
pub struct Kinds {
    pub planes: Kind,
    pub intra: Kind,
    pub satd: Kind,
    pub film: Kind,
    pub reduce: Kind,
    pub strips: Kind,
}

pub trait Sample: Pixel + Debug + PartialEq {
    /// The depths that cases have, and some that are none of theirs.
    const DEPTHS: &'static [u64];
    const ODD: &'static [u64];
    const KINDS: Kinds;
    /// Whether a sample can be too large for its depth.
    const IS_DEEP: bool;

    /// The low bits of a number.
    fn of(n: u64) -> Self;
    fn put(out: &mut Stream, list: &[Self]);

    fn number(self) -> u64 {
        let n: u16 = self.into();
        u64::from(n)
    }

    /// One of the depths. Where there is but one, nothing is drawn.
    fn depth(r: &mut Random) -> u64 {
        if let [only] = Self::DEPTHS { *only } else { r.of(Self::DEPTHS) }
    }
}

impl Sample for u8 {
    const DEPTHS: &'static [u64] = &[8];
    const ODD: &'static [u64] = &[0, 7, 9, 10, 12, 16, 1 << 31, u32::MAX as u64];
    const KINDS: Kinds = Kinds {
        planes: Kind::Planes,
        intra: Kind::Intra,
        satd: Kind::Satd,
        film: Kind::Film,
        reduce: Kind::Reduce,
        strips: Kind::StripsAdd,
    };
    const IS_DEEP: bool = false;

    fn of(n: u64) -> u8 {
        n as u8
    }
    fn put(out: &mut Stream, list: &[u8]) {
        out.bytes(list);
    }
}

impl Sample for u16 {
    const DEPTHS: &'static [u64] = &[10, 12];
    // One of these may be sound: then samples may be too large.
    const ODD: &'static [u64] = &[0, 8, 8, 9, 10, 11, 12, 13, 14, 16, 1 << 31, u32::MAX as u64];
    const KINDS: Kinds = Kinds {
        planes: Kind::Planes16,
        intra: Kind::Intra16,
        satd: Kind::Satd16,
        film: Kind::Film16,
        reduce: Kind::Reduce16,
        strips: Kind::StripsAdd16,
    };
    const IS_DEEP: bool = true;

    fn of(n: u64) -> u16 {
        n as u16
    }
    fn put(out: &mut Stream, list: &[u16]) {
        out.quarters(list);
    }
}

/// The largest sample of a depth.
pub fn most(depth: u64) -> u64 {
    (1 << depth) - 1
}
