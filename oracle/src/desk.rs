//! Where cases are written and counted, and the records of the detector.
use crate::sizes::{NUMBERS, SCORE, SCORES};
use crate::state::{Call, Score, State};
use crate::stream::{Kind, Stream};
use crate::tally::Tally;

/// The lengths of a state's two places.
pub const LENGTHS: (u64, u64) = (NUMBERS as u64, SCORES as u64);

pub struct Desk<'a> {
    pub out: &'a mut Stream,
    pub tally: &'a mut Tally,
}

pub fn put_state(desk: &mut Desk, s: &State) {
    desk.out.words(&s.numbers).reals(&s.places);
    desk.out.end(Kind::State);
}

/// Writes a call with the answer that is due.
pub fn put_call(desk: &mut Desk, lengths: (u64, u64), c: &Call, answer: i64, after: &State, given: Option<Score>) {
    desk.out.word(lengths.0).word(lengths.1).word(c.set).word(c.frame).word(c.previous);
    desk.out.reals(&c.inter).reals(&c.importance).reals(&c.threshold).answer(answer);
    if answer >= 0 {
        desk.out.words(&after.numbers);
        desk.out.reals(&after.places[..after.count() * SCORE]);
        desk.out.reals(given.as_ref().map_or(&[], |g| &g[..]));
    }
    desk.out.end(Kind::Step);
}
