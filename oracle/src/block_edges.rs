//! Document 02's L7 at the edges: planes with no whole block, counts of none, and NaNs in the lists of a call and in a state.
use crate::desk::{Desk, LENGTHS};
use crate::edges::{both, flat, fresh};
use crate::list_cases::threshold_of;
use crate::measures_reading as read;
use crate::pair_edges::{is_due, state};
use crate::random::Random;
use crate::reading::{self, FAST, NONE, STANDARD};
use crate::run::Film;
use crate::sample::Sample;
use crate::sizes::{SCORE, SET_LIMIT};
use crate::state::{Call, State};

/// Document 01's 7 × 8, and sides around it: some have more samples than a block has, and no block. Then 3 and 19, and of 16 bits
/// 19 and 16.
pub fn measures<T: Sample>(desk: &mut Desk, depth: u64) {
    for (width, height, due) in [(7, 8, 19), (8, 7, 19), (7, 7, 19), (7, 10, 19), (10, 7, 19), (8, 8, 0), (15, 8, 0)] {
        both::<T>(desk, depth, &flat(width, height, 1), &flat(width, height, 200), 1, [0, due, due]);
    }
    let narrow = flat::<T>(7, 8, 1);
    for other in [flat(7, 9, 1), flat(8, 8, 1)] {
        both(desk, depth, &narrow, &other, 1, [3; 3]);
        both(desk, depth, &other, &narrow, 1, [3; 3]);
    }
    if T::IS_DEEP {
        let large = flat(7, 8, 1 << depth);
        both(desk, depth, &large, &narrow, 1, [16, 19, 19]);
        both(desk, depth, &narrow, &large, 1, [16, 19, 19]);
    }
}

/// A count of 0, of a list without costs and of others; and counts beside it.
fn thresholds(desk: &mut Desk) {
    for (costs, count, due) in [(&[][..], 0, 19), (&[7], 0, 19), (&[7, 9], 0, 19), (&[], 1, 4), (&[7], 1, 0), (&[7], 2, 4)] {
        desk.tally.due(read::threshold(costs, count).err().unwrap_or(0) == due);
        threshold_of(desk, costs, count);
    }
}

/// A fresh detector, and a first call of so many frames. Its lists are there in every mode.
fn first(lookahead: u64, mode: u64, set: u64) -> (State, Film, Call) {
    let s = fresh([64, 64, 8, lookahead, mode, 0, 1000]);
    let film = Film::fixed(&s, 1, [2.0, 1.0, 3.0]);
    let c = film.call(&mut Random::new(0), STANDARD, set, 1, 0);
    (s, film, c)
}

/// A NaN at a place of one of the three lists.
fn put_nan(c: &mut Call, list: usize, at: usize) {
    [&mut c.inter, &mut c.importance, &mut c.threshold][list][at] = f64::NAN;
}

/// A NaN in each list, its first item or its last, which this call does not score: 10 where the list is read.
fn lists(desk: &mut Desk) {
    for (mode, lists_read) in [(NONE, 0), (FAST, 1), (STANDARD, 3)] {
        for (list, at) in (0..3).flat_map(|list| [(list, 0), (list, SET_LIMIT as usize - 2)]) {
            let (s, film, mut c) = first(5, mode, SET_LIMIT);
            put_nan(&mut c, list, at);
            is_due(desk, LENGTHS, &s, (film, c), if list < lists_read { 10 } else { 0 });
        }
    }
}

/// 9 before 10: one frame, and lists of an item, of which one is a NaN.
fn order(desk: &mut Desk) {
    for list in 0..3 {
        let (s, film, mut c) = first(4, STANDARD, 2);
        put_nan(&mut c, list, 0);
        is_due(desk, LENGTHS, &s, (film, Call { set: 1, ..c }), 9);
    }
}

/// A state whose next call is a cut. Entry 4 is decided on: its importance and its forward cost are high enough, those of no entry
/// behind it. Of the entries before it the next front alone will be over its threshold, and behind it none is.
fn near_cut() -> State {
    let pairs: Vec<u64> = (16..=25).rev().collect();
    let mut s = state(5, [20, 7, 5], &pairs);
    for (at, place) in s.places.chunks_mut(SCORE).enumerate() {
        place.copy_from_slice(&if at == 4 { [1000.0, 50.0, 1000.0, 1000.0, 10.0] } else { [1.0, 0.0, 0.0, 0.0, 10.0] });
    }
    s
}

/// That call, and whether it is a cut.
fn is_cut(desk: &mut Desk, s: &State, due: bool) {
    let film = Film::fixed(s, 21, [2.0, 1.0, 0.0]);
    let c = film.call(&mut Random::new(0), STANDARD, 7, 21, 21);
    desk.tally.due(reading::step(s, &c).0 == 2 + i64::from(due));
    is_due(desk, LENGTHS, s, (film, c), 0);
}

/// 11 lets NaNs in but for inter costs, since older states hold them; and a NaN is never at or above, nor is anything at or above
/// a NaN. It stands in the entry that is decided on, before it and behind it; then wherever it may.
fn states(desk: &mut Desk) {
    let [importance, backward, forward, threshold] = [1, 2, 3, 4];
    is_cut(desk, &near_cut(), true);
    for (entry, part, due) in [
        (4, importance, false),
        (4, backward, true),
        (4, forward, false),
        (4, threshold, false),
        (2, forward, true),
        (2, threshold, true),
        (7, importance, true),
        (7, backward, true),
        (7, threshold, true),
    ] {
        let mut s = near_cut();
        s.places[entry * SCORE + part] = f64::NAN;
        is_cut(desk, &s, due);
    }
    let mut s = near_cut();
    s.places.chunks_mut(SCORE).for_each(|place| place[1..].fill(f64::NAN));
    is_cut(desk, &s, false);
}

pub fn all(desk: &mut Desk) {
    thresholds(desk);
    lists(desk);
    order(desk);
    states(desk);
}
