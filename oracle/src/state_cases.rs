//! States that are drawn: any that refusal 11 lets in, and places that hold none yet.
use std::array::from_fn;

use crate::detector_cases::{Depths, settings};
use crate::pair_cases;
use crate::random::Random;
use crate::reading::NONE;
use crate::sizes::{OFFSET, PAIRS, ROOM, SCORE, SCORES, SET_LIMIT};
use crate::state::State;
use crate::values::{Taste, any_real, or_nan};

/// What may stand in the places of a state before one is made there.
pub fn blank(r: &mut Random) -> State {
    State { numbers: from_fn(|_| r.word()), places: [any_real(r); SCORES] }
}

/// The most entries that a state has between calls.
pub fn most_entries(s: &State) -> u64 {
    if s.ahead() == 5 { 10 } else { ROOM as u64 - 1 }
}

/// Entries whose inter costs 10 lets in; of some of them nothing else is odd either, but for a NaN here and there.
fn put_costs(r: &mut Random, s: &mut State) {
    let (taste, count, depth) = (Taste::new(r), s.count(), s.numbers[2]);
    for place in s.places.chunks_mut(SCORE).take(count) {
        place[0] = taste.inter(r);
        if r.once_in(2) {
            place[1] = or_nan(taste.importance(r, depth), r);
            place[2] = or_nan(taste.inter(r), r);
            place[3] = or_nan(taste.inter(r), r);
            place[4] = or_nan(taste.threshold(r), r);
        }
    }
}

/// Any state that refusal 11 lets in, reachable or not. Past the count pair numbers are anything.
pub fn any_state(r: &mut Random, depths: Depths) -> State {
    let mut s = State { numbers: from_fn(|_| r.word()), places: from_fn(|_| any_real(r)) };
    s.numbers[..7].copy_from_slice(&settings(r, depths));
    let last = match r.below(8) {
        0 => 0,
        1 | 2 => r.below(20),
        3 | 4 => (1 << 32) - 2 - r.below(3),
        _ => r.below(1 << 20),
    };
    let odd = |r: &mut Random| r.of(&[0, 1, 7, last, last + 1, u64::MAX, 1 << 40]);
    let length = if r.once_in(4) { r.of(&[u64::MAX, SET_LIMIT + 1, 1 << 32]) } else { r.below(SET_LIMIT + 1) };
    let is_empty = s.mode() == NONE || last == 0 || r.once_in(8);
    let mut count = if is_empty { 0 } else { r.from_to(1, most_entries(&s)) };
    let offset = if is_empty { s.ahead() } else { r.below(count) };
    // Numbers that fall by one from last + o on go down to 0 and no further.
    if length > s.ahead() {
        count = count.min(last + offset + 1);
    }
    s.numbers[OFFSET..PAIRS].copy_from_slice(&[offset, last, length, odd(r), odd(r), count]);
    put_costs(r, &mut s);
    pair_cases::number(r, &mut s);
    s
}
