//! Document 02's L5 at the edges: each part that it adds to refusal 11 alone, at its edge and beside it, before 7; and runs from
//! first sets of which an item is scored twice.
use crate::damage;
use crate::desk::{Desk, LENGTHS, put_state};
use crate::detector_cases::{self, accepted};
use crate::edges::fresh;
use crate::random::Random;
use crate::reading::{self, FAST, NONE, STANDARD};
use crate::run::Film;
use crate::sizes::{LAST, LENGTH, PAIRS, SCORE, SCORES, SET_LIMIT};
use crate::state::{Call, Entry, State};

const LARGEST: u64 = u64::MAX;
/// A state without pair numbers.
const WITHOUT: (u64, u64) = (PAIRS as u64, SCORES as u64);
const SETTINGS: [u64; 7] = [64, 64, 8, 0, STANDARD, 0, 1000];

/// A state of a Standard detector after a call, with entries of these pair numbers. Behind them other numbers stand.
pub fn state(lookahead: u64, [last, length, offset]: [u64; 3], pairs: &[u64]) -> State {
    let mut s = fresh(SETTINGS);
    s.numbers[3] = lookahead;
    (s.numbers[LAST], s.numbers[LENGTH]) = (last, length);
    let entries: Vec<_> = pairs.iter().map(|&pair| Entry { pair, score: [1.0; SCORE] }).collect();
    s.put(offset, &entries);
    s
}

fn in_none(mut s: State) -> State {
    s.numbers[4] = NONE;
    s
}

/// The next call over a film whose pairs are all alike. No frame has a number above 2^32 − 1.
fn next(s: &State) -> (Film, Call) {
    let n = s.numbers[LAST].min((1 << 32) - 2) + 1;
    let film = Film::fixed(s, n, [2.0, 1.0, 3.0]);
    let c = film.call(&mut Random::new(0), STANDARD, s.numbers[LENGTH].min(7), n, n);
    (film, c)
}

/// The reading is asked whether this is due, so that a mutant of it makes a list, which is wrong here.
pub fn is_due(desk: &mut Desk, lengths: (u64, u64), s: &State, (film, c): (Film, Call), due: u32) {
    let fault = reading::step_fault(lengths, s, &c);
    desk.tally.due(fault == due);
    put_state(desk, s);
    if fault != 0 {
        return damage::refused(desk, lengths, s, &c, fault);
    }
    accepted(desk, &film, Some(&mut film.placed(s, c.frame)), s, &c);
}

/// States with entries that 11 refuses, each for one of the five reasons. A set of `above` frames is one above A.
fn refused(lookahead: u64, above: u64) -> Vec<State> {
    let a = above - 1;
    let of = |pairs: &[u64]| state(lookahead, [20, above, 2], pairs);
    vec![
        in_none(of(&[22, 21, 20, 19])),
        // Before any call, where the front is free and where it is last number + o.
        state(lookahead, [0, a, 2], &[22, 21, 20, 19]),
        state(lookahead, [0, above, 3], &[3, 2, 1, 0]),
        // Two neighbours fall by two, or rise, at each place.
        of(&[22, 20, 19, 18]),
        of(&[22, 21, 19, 18]),
        of(&[22, 21, 20, 18]),
        of(&[22, 23, 22, 21]),
        of(&[22, 21, 22, 21]),
        of(&[22, 21, 20, 21]),
        state(lookahead, [20, a, 1], &[0, LARGEST]),
        // Two pairs of neighbours are equal, side by side or apart, or three.
        of(&[22, 22, 22, 21]),
        of(&[22, 22, 21, 21]),
        of(&[22, 21, 21, 21]),
        of(&[22, 22, 22, 22]),
        // The front is one off.
        of(&[23, 22, 21, 20]),
        of(&[21, 20, 19, 18]),
        // Last number + o is above every number.
        state(lookahead, [LARGEST, above, 1], &[0, 0]),
        state(lookahead, [LARGEST, above, 1], &[LARGEST, LARGEST - 1]),
    ]
}

/// States beside these that 11 lets in, and what is due then: with a last number of 2^32 or more it is 7.
fn let_in(lookahead: u64, above: u64) -> Vec<(State, u32)> {
    let a = above - 1;
    let of = |pairs: &[u64]| (state(lookahead, [20, above, 2], pairs), 0);
    let free = |offset: u64, pairs: &[u64]| (state(lookahead, [20, a, offset], pairs), 0);
    vec![
        of(&[22, 21, 20, 19]),
        (in_none(state(lookahead, [20, above, a], &[])), 0),
        (state(lookahead, [1, a, 2], &[22, 21, 20, 19]), 0),
        (state(lookahead, [1, above, 3], &[4, 3, 2, 1]), 0),
        of(&[22, 22, 21, 20]),
        of(&[22, 21, 21, 20]),
        of(&[22, 21, 20, 20]),
        free(2, &[23, 22, 21, 20]),
        free(2, &[21, 20, 19, 18]),
        free(0, &[0]),
        free(1, &[1, 0]),
        free(1, &[0, 0]),
        free(1, &[LARGEST, LARGEST - 1]),
        (state(lookahead, [LARGEST, a, 1], &[0, 0]), 7),
        (state(lookahead, [LARGEST - 1, above, 1], &[LARGEST, LARGEST - 1]), 7),
        (state(lookahead, [LARGEST, above, 0], &[LARGEST]), 7),
    ]
}

/// Each part of 11 with A 5 and with A 0: alone, beside it, and before 7.
fn parts(desk: &mut Desk) {
    for (lookahead, above) in [(5, 6), (4, 1)] {
        for (s, due) in let_in(lookahead, above) {
            is_due(desk, LENGTHS, &s, next(&s), due);
        }
        for s in refused(lookahead, above) {
            is_due(desk, LENGTHS, &s, next(&s), 11);
            let (film, c) = next(&s);
            is_due(desk, LENGTHS, &s, (film, Call { frame: 0, ..c }), 11);
        }
    }
}

/// The numbers of a state without its pair numbers are no state: 11, before 6 and before 7.
fn without_pairs(desk: &mut Desk) {
    let s = state(5, [20, 7, 2], &[22, 21, 20, 19]);
    is_due(desk, WITHOUT, &s, next(&s), 11);
    let (film, c) = next(&s);
    is_due(desk, WITHOUT, &s, (film, Call { frame: 0, ..c }), 11);
    for width in [64, 0] {
        put_state(desk, &s);
        detector_cases::fresh(desk, &[width, 64, 8, 5, FAST, 0, 1000], WITHOUT, &s);
    }
}

/// A run from a first set of so many frames. Seven calls have as many, so that the item that was scored twice goes back; then sets
/// fall to a frame.
fn run(desk: &mut Desk, settings: [u64; 7], first: u64, mut set: u64) {
    let mut s = fresh(settings);
    let film = Film::new(&mut Random::new(set), &s, first, 2 * SET_LIMIT);
    let mut d = film.placed(&s, first);
    put_state(desk, &s);
    for n in first.. {
        let c = film.call(&mut Random::new(n), s.mode(), set, n, first);
        let fault = reading::step_fault(LENGTHS, &s, &c);
        if fault != 0 {
            return damage::refused(desk, LENGTHS, &s, &c, fault);
        }
        s = accepted(desk, &film, film.real.then_some(&mut d), &s, &c).1;
        set -= u64::from(n >= first + 6);
        if set == 0 {
            return;
        }
    }
}

/// Every short first set: of 2 to 16 frames without lookahead, of six with it. Standard mode, Fast mode with frames as they are
/// and reduced, by turns.
fn short_sets(desk: &mut Desk) {
    let without = (2..=SET_LIMIT).map(|set| (set % 5, set));
    for (turn, (lookahead, set)) in without.chain([5, 6, SET_LIMIT].map(|lookahead| (lookahead, 6))).enumerate() {
        let (side, mode) = [(64, STANDARD), (64, FAST), (640, FAST)][turn % 3];
        run(desk, [side, side, 8, lookahead, mode, 0, 1000], if turn % 2 == 0 { 1 } else { 1000 }, set);
    }
}

pub fn all(desk: &mut Desk) {
    parts(desk);
    without_pairs(desk);
    short_sets(desk);
}
