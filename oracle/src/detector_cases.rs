//! Films from a fresh detector and from any state that refusal 11 lets in, with damaged calls between.
use crate::attempt::ran;
use crate::counted::{Answer, Counted};
use crate::damage;
use crate::desk::{Desk, LENGTHS, put_call, put_state};
use crate::pair_cases;
use crate::random::Random;
use crate::reading::{self, NONE, STANDARD};
use crate::run::{Film, LOOKAHEAD_MOST, detector, possible};
use crate::sample::Sample;
use crate::sizes::{LAST, LENGTH, SET_LIMIT};
use crate::state::{Call, Entry, Score, State};
use crate::state_cases::{any_state, blank};
use crate::stream::Kind;
use crate::tally::Ran;
use crate::values::same;

/// Which depths are drawn: that of a byte, or those of two.
#[derive(Clone, Copy)]
pub enum Depths {
    Byte,
    Deep,
}

/// Width, height, depth, lookahead, mode, min, max.
pub fn settings(r: &mut Random, depths: Depths) -> [u64; 7] {
    let depth = match depths {
        Depths::Byte => 8,
        Depths::Deep => u16::depth(r),
    };
    let mode = r.of(&[0, 1, 1, 1, 2, 2, 2, 2]);
    let sides = [1, 2, 8, 16, 240, 241, 480, 481, 1080, 1600, 1601, 8192];
    let (width, height) = if r.once_in(2) { (r.of(&sides[..5]), r.of(&sides)) } else { (r.of(&sides), r.of(&sides[5..])) };
    let lookahead = match r.below(20) {
        0 => r.of(&[u64::MAX, 1 << 32, LOOKAHEAD_MOST + 1, LOOKAHEAD_MOST]),
        1..=9 => r.from_to(4, 6),
        _ => r.below(SET_LIMIT + 1),
    };
    let bound = |r: &mut Random| match r.below(6) {
        0 => r.of(&[u64::MAX, 1 << 32, 0]),
        1 | 2 => 0,
        _ => r.below(14),
    };
    let (min, max) = (bound(r), bound(r));
    let max = if r.once_in(4) { max } else { u64::MAX };
    [width, height, depth, lookahead, mode, min, max]
}

/// A refused or accepted `fresh`; the state that the port then has.
pub fn fresh(desk: &mut Desk, n: &[u64; 7], lengths: (u64, u64), before: &State) -> State {
    let fault = if lengths != LENGTHS { 11 } else { reading::fresh_fault(n) };
    let s = if fault == 0 { reading::fresh(n, before) } else { before.clone() };
    if fault == 0 {
        if possible(&s) {
            let d = detector(n);
            let (offset, entries) = d.door_look();
            if offset as u64 != s.offset() || !entries.is_empty() {
                desk.tally.differs("a fresh detector");
            }
        }
    } else {
        let known = fault != 11 && n[4] <= STANDARD && n[3] <= LOOKAHEAD_MOST;
        desk.tally.refusal(fault, if known { ran(|| detector(n)) } else { Ran::NotAsked });
    }
    desk.out.words(n).word(lengths.0).word(lengths.1).answer(-i64::from(fault)).words(&s.numbers);
    desk.out.end(Kind::Fresh);
    s
}

/// Whether the crate's answer, its score, its offset and its entries are those that were read; the pair numbers are counted
/// beside the crate.
fn is_read(theirs: &Answer, answer: i64, after: &State, given: &Option<Score>) -> bool {
    let equal = |a: &Score, b: &Score| a.iter().zip(b).all(|(x, y)| same(*x, *y));
    let alike = |(a, b): (&Entry, &Entry)| a.pair == b.pair && equal(&a.score, &b.score);
    let scores = match (given, &theirs.given) {
        (Some(a), Some(b)) => equal(a, b),
        (None, None) => true,
        _ => false,
    };
    let ours = after.entries();
    let counts = after.offset() == theirs.offset && ours.len() == theirs.entries.len();
    theirs.is_counted && answer == theirs.answer && scores && counts && ours.iter().zip(&theirs.entries).all(alike)
}

/// An accepted call: the crate's answer if it can be asked, beside the reading's.
pub fn accepted(desk: &mut Desk, film: &Film, d: Option<&mut Counted>, s: &State, c: &Call) -> (i64, State) {
    let (mut answer, mut after) = reading::step(s, c);
    let mut given = (answer >= 2).then(|| after.entries()[after.offset() as usize].score);
    match d {
        None => desk.tally.read_calls += 1,
        Some(d) => match film.ask(d, c) {
            None => desk.tally.differs(&format!("the crate stops: {c:?} from {:?}", s.numbers)),
            Some(theirs) => {
                desk.tally.asked(&theirs);
                if !is_read(&theirs, answer, &after, &given) {
                    let of = s.numbers;
                    desk.tally.differs(&format!("answer {}, read as {answer}: {c:?} from {of:?}", theirs.answer));
                }
                (answer, given) = (theirs.answer, theirs.given);
                after.put(theirs.offset, &theirs.entries);
            }
        },
    }
    desk.tally.cuts += (answer & 1) as u64;
    put_call(desk, LENGTHS, c, answer, &after, given);
    (answer, after)
}

/// How many frames a first set has.
fn first_set(r: &mut Random) -> u64 {
    if r.once_in(3) { r.below(SET_LIMIT + 1) } else { r.of(&[2, 3, 6, 7, 7, 8, SET_LIMIT, SET_LIMIT]) }
}

/// Calls over one film from state s, of which the first has a set of so many frames; sets never get longer.
fn film(desk: &mut Desk, r: &mut Random, mut s: State, first: u64, calls: u64, mut set: u64) {
    let film = Film::new(r, &s, first, calls);
    let mut d = (film.real && possible(&s)).then(|| film.placed(&s, first));
    let mut previous = first - r.below(first.min(20) + 1);
    for n in first..first + calls {
        if s.numbers[LAST] != 0 {
            set = set.min(s.numbers[LENGTH]);
        }
        if r.once_in(5) {
            let c = film.call(r, s.mode(), set, n, previous);
            damage::step(desk, r, &s, &c);
        }
        let c = film.call(r, s.mode(), set, n, previous);
        let fault = reading::step_fault(LENGTHS, &s, &c);
        if fault != 0 {
            damage::refused(desk, LENGTHS, &s, &c, fault);
            return;
        }
        let (answer, after) = accepted(desk, &film, d.as_mut(), &s, &c);
        s = after;
        if answer & 1 == 1 || r.once_in(30) {
            previous = n;
        }
        // From here on nothing but the numbers changes: rule 2 answers every further call.
        if set <= s.ahead() && r.once_in(2) {
            return;
        }
        if r.once_in(if n > first + calls / 2 { 3 } else { 12 }) {
            set = set.saturating_sub(r.of(&[1, 1, 1, 2, 5]));
        }
    }
}

/// Settings and the length of a first set that is short: its last item is scored twice. That is every set without lookahead, and
/// one of six frames with it.
fn short_first(r: &mut Random, depths: Depths) -> ([u64; 7], u64) {
    let mut n = settings(r, depths);
    n[4] = n[4].max(1);
    let (lookahead, set) = if r.once_in(3) { (r.of(&[5, 6, SET_LIMIT]), 6) } else { (r.below(5), r.from_to(2, SET_LIMIT)) };
    n[3] = lookahead;
    (n, set)
}

/// A film over a given state, which may be one that refusal 11 does not let in.
fn given(desk: &mut Desk, r: &mut Random, depths: Depths) {
    let mut s = any_state(r, depths);
    if r.once_in(3) {
        pair_cases::draw(r, &mut s);
    }
    put_state(desk, &s);
    // No film goes beyond the last number that a frame can have.
    let last = s.numbers[LAST].min((1 << 32) - 2);
    let first = if last == 0 { r.of(&[1, 2, 9, 1000]) } else { last + 1 };
    let calls = 1 + r.below(if s.mode() == NONE { 3 } else { 12 });
    let set = first_set(r);
    film(desk, r, s, first, calls, set);
}

/// One run: a fresh detector or a given state, and a film over it.
pub fn run(desk: &mut Desk, r: &mut Random, depths: Depths) {
    if r.once_in(3) {
        return given(desk, r, depths);
    }
    let before = blank(r);
    put_state(desk, &before);
    if r.once_in(4) {
        let sound = settings(r, depths);
        let (n, lengths) = damage::settings(r, sound);
        fresh(desk, &n, lengths, &before);
        put_state(desk, &before);
    }
    let (n, set) = if r.once_in(3) { short_first(r, depths) } else { (settings(r, depths), first_set(r)) };
    let s = fresh(desk, &n, LENGTHS, &before);
    let first = match r.below(8) {
        0..=4 => 1,
        5 => (1 << 32) - 1 - r.below(4),
        6 => r.from_to(2, 20),
        _ => r.from_to(2, 1 << 31),
    };
    let calls = 1 + r.below(if s.mode() == NONE { 20 } else { 50 });
    film(desk, r, s, first, calls, set);
}
