//! The library's C functions, as `include/brinepulley.h` declares them.
use std::ffi::c_double;
use std::fmt::Debug;

use v_frame::pixel::Pixel;

use crate::sizes::{CARRY, NUMBERS, SCORES};

/// The bytes of a record of a log.
pub const RECORD: usize = 47;

pub struct Lent<'a, T> {
    pub samples: &'a [T],
    pub width: usize,
    pub height: usize,
}

#[rustfmt::skip]
type Difference<T> = unsafe extern "C" fn(depth: u32, a: *const T, a_len: usize, w: usize, h: usize, s: usize, o: usize,
    b: *const T, b_len: usize, w2: usize, h2: usize, s2: usize, o2: usize) -> i64;
#[rustfmt::skip]
type Importance<T> = unsafe extern "C" fn(depth: u32, a: *const T, a_len: usize, w: usize, h: usize, s: usize, o: usize,
    b: *const T, b_len: usize, w2: usize, h2: usize, s2: usize, o2: usize, importance: *mut c_double) -> i64;
#[rustfmt::skip]
type IntraCosts<T> = unsafe extern "C" fn(depth: u32, a: *const T, a_len: usize, w: usize, h: usize, s: usize, o: usize,
    work: *mut T, work_len: usize, w2: usize, h2: usize, s2: usize, o2: usize, costs: *mut u32, len: usize) -> i64;
#[rustfmt::skip]
type StripsAdd<T> = unsafe extern "C" fn(carry: *mut u64, carry_len: usize, a: *const T, a_len: usize, w: usize, h: usize, s: usize,
    o: usize, b: *const T, b_len: usize, w2: usize, h2: usize, s2: usize, o2: usize, room: *mut T, room_len: usize,
    costs: *mut u32, len: usize) -> i64;
#[rustfmt::skip]
type Reduce<T> = unsafe extern "C" fn(depth: u32, factor: usize, samples: *const T, samples_len: usize, w: usize, h: usize,
    s: usize, o: usize, reduced: *mut T, reduced_len: usize, w2: usize, h2: usize, s2: usize, o2: usize) -> i64;

/// A sample's word: the depth that is measured, what is said of it, and the library's functions for it.
pub trait Sample: Pixel + PartialEq + Debug {
    const DEPTH: u32;
    const SAID: &'static str;
    const DIFFERENCE: Difference<Self>;
    const IMPORTANCE_TOTAL: Difference<Self>;
    const IMPORTANCE: Importance<Self>;
    const INTRA_COSTS: IntraCosts<Self>;
    const REDUCE: Reduce<Self>;
    const STRIPS_ADD: StripsAdd<Self>;
    /// The high bits of a word, as many as the depth says.
    fn of(word: u64) -> Self;
}

impl Sample for u8 {
    const DEPTH: u32 = 8;
    const SAID: &'static str = "";
    const DIFFERENCE: Difference<u8> = brine_plane_difference;
    const IMPORTANCE_TOTAL: Difference<u8> = brine_importance_total;
    const IMPORTANCE: Importance<u8> = brine_importance;
    const INTRA_COSTS: IntraCosts<u8> = brine_intra_costs;
    const REDUCE: Reduce<u8> = brine_reduce;
    const STRIPS_ADD: StripsAdd<u8> = brine_strips_add;
    fn of(word: u64) -> u8 {
        (word >> 56) as u8
    }
}

impl Sample for u16 {
    const DEPTH: u32 = 12;
    const SAID: &'static str = ", 12 bits in 16";
    const DIFFERENCE: Difference<u16> = brine_plane_difference16;
    const IMPORTANCE_TOTAL: Difference<u16> = brine_importance_total16;
    const IMPORTANCE: Importance<u16> = brine_importance16;
    const INTRA_COSTS: IntraCosts<u16> = brine_intra_costs16;
    const REDUCE: Reduce<u16> = brine_reduce16;
    const STRIPS_ADD: StripsAdd<u16> = brine_strips_add16;
    fn of(word: u64) -> u16 {
        (word >> 52) as u16
    }
}

#[rustfmt::skip]
unsafe extern "C" {
    fn brine_reduce(depth: u32, factor: usize, samples: *const u8, samples_len: usize, w: usize, h: usize, s: usize, o: usize,
        reduced: *mut u8, reduced_len: usize, w2: usize, h2: usize, s2: usize, o2: usize) -> i64;
    fn brine_plane_difference(depth: u32, a: *const u8, a_len: usize, w: usize, h: usize, s: usize, o: usize,
        b: *const u8, b_len: usize, w2: usize, h2: usize, s2: usize, o2: usize) -> i64;
    fn brine_importance_total(depth: u32, a: *const u8, a_len: usize, w: usize, h: usize, s: usize, o: usize,
        b: *const u8, b_len: usize, w2: usize, h2: usize, s2: usize, o2: usize) -> i64;
    fn brine_importance(depth: u32, a: *const u8, a_len: usize, w: usize, h: usize, s: usize, o: usize,
        b: *const u8, b_len: usize, w2: usize, h2: usize, s2: usize, o2: usize, importance: *mut c_double) -> i64;
    fn brine_intra_costs(depth: u32, a: *const u8, a_len: usize, w: usize, h: usize, s: usize, o: usize,
        work: *mut u8, work_len: usize, w2: usize, h2: usize, s2: usize, o2: usize, costs: *mut u32, len: usize) -> i64;
    fn brine_reduce16(depth: u32, factor: usize, samples: *const u16, samples_len: usize, w: usize, h: usize, s: usize, o: usize,
        reduced: *mut u16, reduced_len: usize, w2: usize, h2: usize, s2: usize, o2: usize) -> i64;
    fn brine_plane_difference16(depth: u32, a: *const u16, a_len: usize, w: usize, h: usize, s: usize, o: usize,
        b: *const u16, b_len: usize, w2: usize, h2: usize, s2: usize, o2: usize) -> i64;
    fn brine_importance_total16(depth: u32, a: *const u16, a_len: usize, w: usize, h: usize, s: usize, o: usize,
        b: *const u16, b_len: usize, w2: usize, h2: usize, s2: usize, o2: usize) -> i64;
    fn brine_importance16(depth: u32, a: *const u16, a_len: usize, w: usize, h: usize, s: usize, o: usize,
        b: *const u16, b_len: usize, w2: usize, h2: usize, s2: usize, o2: usize, importance: *mut c_double) -> i64;
    fn brine_intra_costs16(depth: u32, a: *const u16, a_len: usize, w: usize, h: usize, s: usize, o: usize,
        work: *mut u16, work_len: usize, w2: usize, h2: usize, s2: usize, o2: usize, costs: *mut u32, len: usize) -> i64;
    fn brine_strips_add(carry: *mut u64, carry_len: usize, a: *const u8, a_len: usize, w: usize, h: usize, s: usize, o: usize,
        b: *const u8, b_len: usize, w2: usize, h2: usize, s2: usize, o2: usize, room: *mut u8, room_len: usize,
        costs: *mut u32, len: usize) -> i64;
    fn brine_strips_add16(carry: *mut u64, carry_len: usize, a: *const u16, a_len: usize, w: usize, h: usize, s: usize, o: usize,
        b: *const u16, b_len: usize, w2: usize, h2: usize, s2: usize, o2: usize, room: *mut u16, room_len: usize,
        costs: *mut u32, len: usize) -> i64;
    fn brine_strips_start(depth: u32, width: usize, height: usize, carry: *mut u64, carry_len: usize) -> i64;
    fn brine_strips_end(carry: *const u64, carry_len: usize, difference: *mut u64, importance_total: *mut u64) -> i64;
    fn brine_hadamard8x8(list: *mut i32, len: usize) -> i64;
    fn brine_detector_fresh(width: usize, height: usize, depth: u32, lookahead: usize, mode: u32, min: u64, max: u64,
        numbers: *mut u64, numbers_len: usize, scores: *mut c_double, scores_len: usize) -> i64;
    fn brine_detector_step(numbers: *mut u64, numbers_len: usize, scores: *mut c_double, scores_len: usize, set_len: usize,
        frame: u64, previous_keyframe: u64, inter: *const c_double, inter_len: usize, importance: *const c_double,
        importance_len: usize, threshold: *const c_double, threshold_len: usize) -> i64;
    fn brine_log_scan(log: *const u8, len: usize, torn: *mut u64) -> i64;
    fn brine_log_read(log: *const u8, len: usize, numbers: *mut u32, numbers_len: usize, bits: *mut u64, bits_len: usize,
        cuts: *mut u8, cuts_len: usize, torn: *mut u64) -> i64;
    fn brine_log_append(log: *mut u8, len: usize, used: usize, number: u32, inter: c_double, importance: c_double,
        backward: c_double, forward: c_double, threshold: c_double, cut: u32) -> i64;
}

pub fn reduce<T: Sample>(a: &Lent<T>, factor: usize, reduced: &mut [T]) -> i64 {
    let (w, h) = (a.width / factor, a.height / factor);
    // SAFETY: each pointer is lent with its own length.
    unsafe {
        T::REDUCE(T::DEPTH, factor, a.samples.as_ptr(), a.samples.len(), a.width, a.height, a.width, 0, reduced.as_mut_ptr(),
            reduced.len(), w, h, w, 0)
    }
}

pub fn difference<T: Sample>(a: &Lent<T>, b: &Lent<T>) -> i64 {
    // SAFETY: as above.
    unsafe {
        T::DIFFERENCE(T::DEPTH, a.samples.as_ptr(), a.samples.len(), a.width, a.height, a.width, 0, b.samples.as_ptr(),
            b.samples.len(), b.width, b.height, b.width, 0)
    }
}

pub fn importance_total<T: Sample>(a: &Lent<T>, b: &Lent<T>) -> i64 {
    // SAFETY: as above.
    unsafe {
        T::IMPORTANCE_TOTAL(T::DEPTH, a.samples.as_ptr(), a.samples.len(), a.width, a.height, a.width, 0, b.samples.as_ptr(),
            b.samples.len(), b.width, b.height, b.width, 0)
    }
}

pub fn importance<T: Sample>(a: &Lent<T>, b: &Lent<T>) -> f64 {
    let mut out = 0.0;
    // SAFETY: as above.
    let answer = unsafe {
        T::IMPORTANCE(T::DEPTH, a.samples.as_ptr(), a.samples.len(), a.width, a.height, a.width, 0, b.samples.as_ptr(),
            b.samples.len(), b.width, b.height, b.width, 0, &mut out)
    };
    assert_eq!(answer, 0);
    out
}

pub fn intra_costs<T: Sample>(a: &Lent<T>, work: &mut [T], costs: &mut [u32]) -> i64 {
    // SAFETY: as above.
    unsafe {
        T::INTRA_COSTS(T::DEPTH, a.samples.as_ptr(), a.samples.len(), a.width, a.height, a.width, 0, work.as_mut_ptr(),
            work.len(), a.width, a.height, a.width, 0, costs.as_mut_ptr(), costs.len())
    }
}

/// What two frames that come in strips carry from one to the next.
pub struct Carry([u64; CARRY]);

impl Carry {
    pub fn start<T: Sample>(width: usize, height: usize) -> Self {
        let mut carry = Carry([0; CARRY]);
        // SAFETY: as above.
        assert_eq!(unsafe { brine_strips_start(T::DEPTH, width, height, carry.0.as_mut_ptr(), CARRY) }, 0);
        carry
    }

    /// How many rows have come.
    pub fn add<T: Sample>(&mut self, a: &Lent<T>, b: &Lent<T>, room: &mut [T], costs: &mut [u32]) -> i64 {
        // SAFETY: as above.
        unsafe {
            T::STRIPS_ADD(self.0.as_mut_ptr(), CARRY, a.samples.as_ptr(), a.samples.len(), a.width, a.height, a.width, 0,
                b.samples.as_ptr(), b.samples.len(), b.width, b.height, b.width, 0, room.as_mut_ptr(), room.len(),
                costs.as_mut_ptr(), costs.len())
        }
    }

    /// How many whole blocks there are, the difference and the importance total.
    pub fn end(&self) -> (i64, u64, u64) {
        let (mut difference, mut total) = (0, 0);
        // SAFETY: as above.
        let blocks = unsafe { brine_strips_end(self.0.as_ptr(), CARRY, &mut difference, &mut total) };
        (blocks, difference, total)
    }
}

pub fn hadamard8x8(list: &mut [i32]) -> i64 {
    // SAFETY: as above.
    unsafe { brine_hadamard8x8(list.as_mut_ptr(), list.len()) }
}

pub struct Detector {
    numbers: [u64; NUMBERS],
    scores: [f64; SCORES],
}

impl Detector {
    pub fn fresh(width: usize, height: usize, lookahead: usize, mode: u32, min: u64, max: u64) -> Self {
        let mut d = Detector { numbers: [0; NUMBERS], scores: [0.0; SCORES] };
        // SAFETY: as above.
        let answer = unsafe {
            brine_detector_fresh(width, height, 8, lookahead, mode, min, max, d.numbers.as_mut_ptr(), NUMBERS,
                d.scores.as_mut_ptr(), SCORES)
        };
        assert_eq!(answer, 0);
        d
    }

    pub fn step(&mut self, set: usize, n: u64, previous: u64, inter: &[f64], importance: &[f64], threshold: &[f64]) -> i64 {
        // SAFETY: as above.
        unsafe {
            brine_detector_step(self.numbers.as_mut_ptr(), NUMBERS, self.scores.as_mut_ptr(), SCORES, set, n, previous,
                inter.as_ptr(), inter.len(), importance.as_ptr(), importance.len(), threshold.as_ptr(), threshold.len())
        }
    }
}

/// How many records, and the length of the rest.
pub fn log_scan(log: &[u8]) -> (i64, u64) {
    let mut torn = 0;
    // SAFETY: as above.
    let count = unsafe { brine_log_scan(log.as_ptr(), log.len(), &mut torn) };
    (count, torn)
}

pub fn log_read(log: &[u8], numbers: &mut [u32], bits: &mut [u64], cuts: &mut [u8]) -> (i64, u64) {
    let mut torn = 0;
    // SAFETY: as above.
    let count = unsafe {
        brine_log_read(log.as_ptr(), log.len(), numbers.as_mut_ptr(), numbers.len(), bits.as_mut_ptr(), bits.len(),
            cuts.as_mut_ptr(), cuts.len(), &mut torn)
    };
    (count, torn)
}

pub fn log_append(log: &mut [u8], used: usize, number: u32, [a, b, c, d, e]: [f64; 5], cut: u32) -> i64 {
    // SAFETY: as above.
    unsafe { brine_log_append(log.as_mut_ptr(), log.len(), used, number, a, b, c, d, e, cut) }
}
