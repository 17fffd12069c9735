//! The pair numbers of states that are drawn: such as refusal 11 lets in, and such as stand at an edge of what it asks of them.
use crate::random::Random;
use crate::reading::{FAST, NONE};
use crate::sizes::{COUNT, LAST, LENGTH, OFFSET, PAIRS, ROOM, SCORE};
use crate::state::State;
use crate::state_cases::most_entries;

const LARGEST: u64 = u64::MAX;
/// No entry has this place.
const NOWHERE: u64 = u64::MAX;

/// The entries' numbers fall by one from the front on; behind the places in `equal` the same number stands again. Behind 0 comes
/// the largest.
pub fn fall(s: &mut State, front: u64, equal: &[u64]) {
    let mut pair = front;
    for k in 0..s.count() {
        s.numbers[PAIRS + k] = pair;
        pair = pair.wrapping_sub(u64::from(!equal.contains(&(k as u64))));
    }
}

/// Last number + o; behind the largest comes 0.
fn sum(s: &State) -> u64 {
    s.numbers[LAST].wrapping_add(s.numbers[OFFSET])
}

/// Numbers that 11 lets in: one pair of neighbours may be equal, anywhere; after a set of A frames or fewer the front is free,
/// and the back may be 0.
pub fn number(r: &mut Random, s: &mut State) {
    let count = s.numbers[COUNT];
    if count == 0 {
        return;
    }
    let equal = if r.once_in(2) { NOWHERE } else { r.below(count) };
    let least = count - 1 - u64::from(equal < count - 1);
    let is_free = s.numbers[LENGTH] <= s.ahead();
    let front = if is_free { r.of(&[least, least + 1, sum(s), sum(s) + 1, 1 << 40, LARGEST]).max(least) } else { sum(s) };
    fall(s, front, &[equal]);
}

/// Numbers that fall by one from last number + o on, in a state that scores and has had a call.
pub fn in_order(s: &mut State) {
    if s.mode() == NONE {
        s.numbers[4] = FAST;
    }
    s.numbers[LAST] = s.numbers[LAST].clamp(ROOM as u64, (1 << 32) - 2);
    fall(s, sum(s), &[]);
}

/// A state that 11 lets in, with so many entries at least, whose front is not free. Settings and scores are kept, as far as 11
/// lets them in.
fn sound(r: &mut Random, s: &mut State, least: u64) {
    let count = r.from_to(least, most_entries(s));
    s.numbers[COUNT] = count;
    for place in s.places.chunks_mut(SCORE).take(count as usize) {
        place[0] = if place[0].is_finite() && place[0] >= 0.0 { place[0] } else { 1.0 };
    }
    s.numbers[OFFSET] = r.below(count);
    let ahead = s.ahead();
    s.numbers[LENGTH] = r.of(&[ahead + 1, ahead + 1, 7, 7, 16, LARGEST]);
    in_order(s);
}

/// A state with entries at an edge of what 11 asks of them: refused for one reason alone, or just let in.
pub fn draw(r: &mut Random, s: &mut State) {
    match r.below(6) {
        0 => in_none(r, s),
        1 => before_any_call(r, s),
        2 => astray(r, s),
        3 => repeated(r, s),
        4 => front(r, s),
        _ => largest(r, s),
    }
}

/// Entries in None mode; now and then none.
fn in_none(r: &mut Random, s: &mut State) {
    sound(r, s, 1);
    s.numbers[4] = NONE;
    if r.once_in(4) {
        (s.numbers[COUNT], s.numbers[OFFSET]) = (0, s.ahead());
    }
}

/// Entries before any call, or after call 1. The front is free, or the numbers go down to that of the call.
fn before_any_call(r: &mut Random, s: &mut State) {
    sound(r, s, 1);
    s.numbers[LAST] = r.of(&[0, 0, 1]);
    if r.once_in(2) {
        s.numbers[LENGTH] = s.ahead();
        return;
    }
    s.numbers[OFFSET] = s.numbers[COUNT] - 1;
    fall(s, sum(s), &[]);
}

/// Two neighbours that fall by two or more, rise, or go from 0 to the largest number; or are equal.
fn astray(r: &mut Random, s: &mut State) {
    sound(r, s, 2);
    let place = r.below(s.numbers[COUNT] - 1);
    if r.once_in(4) {
        s.numbers[LENGTH] = s.ahead();
        return fall(s, place, &[]);
    }
    let more = r.of(&[LARGEST, LARGEST, LARGEST - 1, 1, 2, 2, 3, 1 << 32, 1 << 63]);
    let (behind, end) = (PAIRS + place as usize + 1, PAIRS + s.count());
    s.numbers[behind..end].iter_mut().for_each(|pair| *pair = pair.wrapping_add(more));
}

/// Up to three pairs of equal neighbours, also side by side.
fn repeated(r: &mut Random, s: &mut State) {
    sound(r, s, 3);
    let pairs = s.numbers[COUNT] - 1;
    let first = r.below(pairs);
    let places = [first, (first + 1) % pairs, r.below(pairs)];
    let few = r.of(&[1, 2, 2, 3]);
    fall(s, sum(s), &places[..few]);
}

/// A front that is off by one or more, after a set of A frames, one more, or two; or an offset that is off.
fn front(r: &mut Random, s: &mut State) {
    sound(r, s, 1);
    s.numbers[LENGTH] = s.ahead() + r.of(&[0, 0, 1, 1, 2]);
    if r.once_in(4) {
        s.numbers[OFFSET] = (s.numbers[OFFSET] + 1) % s.numbers[COUNT];
        return;
    }
    fall(s, sum(s).wrapping_add(r.of(&[0, 1, 1, LARGEST, LARGEST, 1 << 32, 1 << 63])), &[]);
}

/// Last number + o is the largest number, or one that is larger than any: then no front is right, not what is left of the sum
/// either, nor the largest.
fn largest(r: &mut Random, s: &mut State) {
    sound(r, s, 2);
    let offset = s.numbers[COUNT] - 1;
    s.numbers[OFFSET] = offset;
    let (last, front, equal) = match r.below(4) {
        0 | 1 => (LARGEST, offset - 1, r.below(offset)),
        2 => (LARGEST - offset + 1, LARGEST, NOWHERE),
        _ => (LARGEST - offset, LARGEST, r.below(offset)),
    };
    s.numbers[LAST] = last;
    fall(s, front, &[equal]);
}
