//! Document 01's values at the edges, the starred ones and the others; and the same at document 02's depths.
use crate::block_edges;
use crate::desk::{Desk, LENGTHS, put_state};
use crate::detector_cases::accepted;
use crate::list_cases::{satd_of, scale_of};
use crate::measures_reading::{self as read, Lent};
use crate::pair_edges;
use crate::plane_cases::{intra_of, pair_of};
use crate::random::Random;
use crate::reading::{self, FAST, NONE, STANDARD};
use crate::run::Film;
use crate::sample::{Sample, most};
use crate::sizes::{LAST, LENGTH, NUMBERS, SCORES, SET_LIMIT};
use crate::state::State;

pub fn flat<T: Sample>(width: u64, height: u64, value: u64) -> Lent<T> {
    Lent { samples: vec![T::of(value); (width * height) as usize], width, height, stride: width, origin: 0 }
}

/// Two planes, as measures of two and as a plane with its work plane; how many costs there is room for; what is due of the
/// difference, of the importance and of the costs. The reading is asked all the same, so that a mutant of it makes a list, which
/// is wrong here.
pub fn both<T: Sample>(desk: &mut Desk, depth: u64, a: &Lent<T>, b: &Lent<T>, room: usize, due: [u32; 3]) {
    let two = [read::difference_fault(depth, a, b), read::importance_fault(depth, a, b)];
    desk.tally.due([two[0], two[1], read::intra_fault(depth, a, b, room)] == due);
    pair_of(desk, depth, a, b);
    intra_of(desk, depth, a, b, &vec![7; room]);
}

/// A block whose samples add up to `sum`.
fn summing<T: Sample>(sum: usize) -> Lent<T> {
    let mut l = flat(8, 8, 0);
    l.samples[..sum].fill(T::of(1));
    l
}

fn scales(desk: &mut Desk) {
    for (side, mode) in [(240, 1), (241, 1), (1600, 1), (1601, 1), (1601, 2), (8192, 1), (1, 1), (0, 1), (8193, 0)] {
        scale_of(desk, side, 8192, mode);
    }
}

pub fn measures<T: Sample>(desk: &mut Desk, depth: u64) {
    let (most, middle) = (most(depth), 1 << (depth - 1));
    let pair = |desk: &mut Desk, a: Lent<T>, b: Lent<T>| pair_of(desk, depth, &a, &b);
    for value in [6, 7] {
        pair(desk, flat(8, 8, 0), flat(8, 8, value));
    }
    for sum in [31, 32] {
        pair(desk, flat(8, 8, 0), summing(sum));
    }
    pair(desk, flat(8192, 1, 0), flat(8192, 1, most));
    pair(desk, flat(8193, 1, 0), flat(8193, 1, most));
    let mut one = [T::of(middle); 64];
    one[27] = T::of(middle + 1);
    for block in [[T::of(middle); 64], [T::of(0); 64], [T::of(most); 64], one] {
        satd_of(desk, &block, &[T::of(middle); 64]);
        let plane = Lent { samples: block.to_vec(), ..flat(8, 8, 0) };
        intra_of(desk, depth, &plane, &flat(8, 8, 3), &[9, 9]);
    }
    intra_of::<T>(desk, depth, &flat(15, 17, 4), &flat(15, 17, 3), &[9, 9]);
    block_edges::measures::<T>(desk, depth);
}

/// A difference that 32 bits do not hold.
pub fn large(desk: &mut Desk) {
    pair_of::<u8>(desk, 8, &flat(4105, 4105, 0), &flat(4105, 4105, most(8)));
}

/// The same of 12 bits.
pub fn large_deep(desk: &mut Desk) {
    pair_of::<u16>(desk, 12, &flat(1025, 1025, 0), &flat(1025, 1025, most(12)));
}

/// A fresh detector; the pair numbers that no entry has are odd.
pub fn fresh(settings: [u64; 7]) -> State {
    reading::fresh(&settings, &State { numbers: [77; NUMBERS], places: [0.5; SCORES] })
}

/// A first call with fixed measures.
fn first(desk: &mut Desk, settings: [u64; 7], set: u64, n: u64, previous: u64, fed: [f64; 3]) {
    let s = fresh(settings);
    let film = Film::fixed(&s, n, fed);
    let c = film.call(&mut Random::new(0), STANDARD, set, n, previous);
    put_state(desk, &s);
    assert!(reading::step_fault(LENGTHS, &s, &c) == 0);
    accepted(desk, &film, Some(&mut film.placed(&s, n)), &s, &c);
}

fn calls(desk: &mut Desk) {
    let never = 1000;
    for distance in [4, 5] {
        first(desk, [64, 64, 8, 0, NONE, 5, 3], 1, 9, 9 - distance, [0.0; 3]);
    }
    for threshold in [10.0, 0.0] {
        first(desk, [64, 64, 8, 4, STANDARD, 0, never], 2, 1, 0, [1000.0, 50.0, threshold]);
    }
    first(desk, [64, 64, 8, 4, FAST, 0, never], 2, 1, 0, [20.0, 0.0, 0.0]);
    first(desk, [64, 64, 8, 5, STANDARD, 0, never], 5, 1, 0, [1.0, 50.0, 0.0]);
    for n in [5, 1] {
        first(desk, [64, 64, 8, 5, STANDARD, 0, never], 7, n, 0, [1.0, 50.0, 0.0]);
    }
    // The longest set without lookahead leaves one entry less than there is room for.
    for mode in [FAST, STANDARD] {
        first(desk, [64, 64, 8, 0, mode, 0, never], SET_LIMIT, 1, 0, [19.0, 50.0, 0.0]);
        first(desk, [640, 480, 8, 0, mode, 0, never], SET_LIMIT, 1, 0, [19.0, 50.0, 0.0]);
    }
}

/// A detector that ends: no number after 2^32 − 1 is accepted.
fn last_number(desk: &mut Desk) {
    let mut s = fresh([64, 64, 8, 5, NONE, 0, 0]);
    (s.numbers[LAST], s.numbers[LENGTH]) = ((1 << 32) - 1, SET_LIMIT);
    let film = Film::fixed(&s, 1 << 32, [0.0; 3]);
    let c = film.call(&mut Random::new(0), STANDARD, 7, 1 << 32, 0);
    put_state(desk, &s);
    crate::damage::refused(desk, LENGTHS, &s, &c, reading::step_fault(LENGTHS, &s, &c));
}

/// A first call of two frames whose cost is at the threshold of a depth, and one just below it: in Fast mode its delta, which the
/// film has of 4,096 samples, in Standard its importance.
pub fn thresholds(desk: &mut Desk) {
    for (depth, fast, importance) in [(8, 18.0, 7.0f64), (10, 22.5, 8.75), (12, 27.0, 10.5)] {
        let settings = |mode| [64, 64, depth, 4, mode, 0, 1000];
        for delta in [fast, fast - 1.0 / 4096.0] {
            first(desk, settings(FAST), 2, 1, 0, [delta, 0.0, 0.0]);
        }
        for importance in [importance, importance.next_down()] {
            first(desk, settings(STANDARD), 2, 1, 0, [1000.0, importance, 0.0]);
        }
    }
}

pub fn all(desk: &mut Desk) {
    scales(desk);
    measures::<u8>(desk, 8);
    calls(desk);
    last_number(desk);
    pair_edges::all(desk);
    block_edges::all(desk);
}
