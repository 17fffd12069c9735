//! Calls that are refused. The reading says with which number; the crate is given the same call where it can be.
use crate::desk::{Desk, LENGTHS, put_call, put_state};
use crate::pair_cases;
use crate::random::Random;
use crate::reading;
use crate::run::ask_refused;
use crate::sizes::{COUNT, LAST, LENGTH, OFFSET, PAIRS, ROOM, SCORE, SET_LIMIT};
use crate::state::{Call, State};
use crate::tally::Ran;
use crate::values::forbidden;

const ODD: [u64; 6] = [0, 7, 9, 10, 1 << 32, u64::MAX];

/// Settings and lengths of the state's places, with something wrong in most of them. A depth that is another's is none.
pub fn settings(r: &mut Random, mut n: [u64; 7]) -> ([u64; 7], (u64, u64)) {
    let (mut lengths, is_deep) = (LENGTHS, n[2] > 8);
    for _ in 0..1 + r.below(2) {
        match r.below(5) {
            0 => n[0] = r.of(&[0, 8193, u64::MAX]),
            1 => n[1] = r.of(&[0, 8193, 1 << 33]),
            2 if is_deep => n[2] = r.of(&[0, 8, 9, 11, 13, 14, 16, u64::from(u32::MAX)]),
            2 => n[2] = r.of(&[0, 7, 9, 10, 16, u64::from(u32::MAX)]),
            3 => n[4] = r.of(&[3, 4, u64::from(u32::MAX)]),
            _ => lengths = odd_lengths(r),
        }
    }
    (n, lengths)
}

/// Among them those of a state without pair numbers.
fn odd_lengths(r: &mut Random) -> (u64, u64) {
    let (n, s) = LENGTHS;
    r.of(&[(n - 1, s), (n + 1, s), (n, s - 1), (n, s + 1), (0, 0), (n, 0), (0, s), (s, n), (PAIRS as u64, s)])
}

/// One wrong thing in a state. A depth that is another's is none.
fn state(r: &mut Random, s: &mut State, is_deep: bool) {
    let (count, room) = (s.numbers[COUNT], ROOM as u64);
    match r.below(11) {
        0 => s.numbers[0] = r.of(&[0, 8193, u64::MAX, (1 << 32) + 16]),
        1 => s.numbers[1] = r.of(&[0, 8193, u64::MAX, (1 << 32) + 16]),
        2 if is_deep => s.numbers[2] = r.of(&[0, 8, 9, 11, 12, 16, (1 << 32) + 10, (1 << 32) + 12, u64::MAX]),
        2 => s.numbers[2] = r.of(&[0, 7, 10, (1 << 32) + 8, u64::MAX]),
        3 => s.numbers[4] = r.of(&[3, (1 << 32) + 1, (1 << 32) + 2, 1 << 32, u64::MAX]),
        4 => {
            s.numbers[OFFSET] = r.of(&[0, count, count.wrapping_add(1), u64::MAX, count.wrapping_sub(1).wrapping_add(1 << 32)]);
            if r.once_in(2) {
                pair_cases::in_order(s);
            }
        }
        5 => {
            // Too many entries, and nothing else that is wrong with them.
            s.numbers[COUNT] = r.of(&[room, room, room + 1, 11, 11, room - 1, count.wrapping_add(1 << 32), u64::MAX, 0]);
            s.places.chunks_mut(SCORE).for_each(|e| e[0] = 1.0);
            pair_cases::in_order(s);
        }
        6 => {
            let (last, front) = (r.of(&[u64::MAX, 1 << 32, (1 << 32) - 1]), s.offset());
            s.numbers[LAST] = last;
            pair_cases::fall(s, last.wrapping_add(front), &[]);
        }
        9 | 10 => pair_cases::draw(r, s),
        _ => {
            // 11 asks for the inter cost alone: in the other four this is let in.
            let (at, part) = (r.below(count.clamp(1, room)) as usize, r.of(&[0, 0, 1, 2, 3, 4]));
            s.places[at * SCORE + part] = forbidden(r);
        }
    }
}

/// A set of so many frames, its lists as long as they should be.
fn resize(c: &mut Call, set: u64) {
    c.set = set;
    for list in [&mut c.inter, &mut c.importance, &mut c.threshold] {
        list.resize(set as usize - 1, 1.0);
    }
}

/// One of the three lists.
fn any_list<'a>(r: &mut Random, c: &'a mut Call) -> &'a mut Vec<f64> {
    [&mut c.inter, &mut c.importance, &mut c.threshold].into_iter().nth(r.below(3) as usize).unwrap()
}

/// One wrong thing in a call.
fn call(r: &mut Random, s: &State, c: &mut Call) {
    let n = c.frame;
    match r.below(9) {
        0 => c.frame = r.of(&[0, n.wrapping_add(1), n.wrapping_sub(1), 1 << 32, u64::MAX, n.wrapping_add(1 << 32)]),
        1 => c.previous = r.of(&[n.wrapping_add(1), u64::MAX, 1 << 40]),
        2 => c.set = r.of(&[SET_LIMIT + 1, u64::MAX, 1 << 32, 1 << 63, c.set.wrapping_add(1 << 32)]),
        3 => {
            let free = s.numbers[LAST] == 0 || s.numbers[LENGTH] > SET_LIMIT;
            resize(c, if free { SET_LIMIT + 1 } else { s.numbers[LENGTH] + 1 });
        }
        4 => {
            let list = any_list(r, c);
            match r.below(3) {
                0 => list.push(1.0),
                1 => drop(list.pop()),
                _ => list.clear(),
            }
        }
        5..=7 => {
            let list = any_list(r, c);
            let at = r.below(list.len().max(1) as u64) as usize;
            if let Some(x) = list.get_mut(at) {
                *x = forbidden(r);
            }
        }
        _ => resize(c, 1),
    }
}

/// A call like the one given, changed in one or more ways. Where no change makes it a call that is refused, the reading
/// says what is due: a library that refuses too much is found by these.
pub fn step(desk: &mut Desk, r: &mut Random, s: &State, c: &Call) {
    let (mut hurt, mut c, mut lengths) = (s.clone(), c.clone(), LENGTHS);
    for _ in 0..r.of(&[1, 1, 1, 2, 3]) {
        match r.below(12) {
            0 => lengths = odd_lengths(r),
            1..=3 => state(r, &mut hurt, s.numbers[2] > 8),
            4 => hurt.numbers[r.below(3) as usize] = r.of(&ODD),
            _ => call(r, s, &mut c),
        }
    }
    put_state(desk, &hurt);
    match reading::step_fault(lengths, &hurt, &c) {
        0 => read(desk, &hurt, &c),
        fault => refused(desk, lengths, &hurt, &c, fault),
    }
    put_state(desk, s);
}

/// Writes an accepted call that belongs to no film: the reading alone answers.
fn read(desk: &mut Desk, s: &State, c: &Call) {
    let (answer, after) = reading::step(s, c);
    let given = (answer >= 2).then(|| after.entries()[after.offset() as usize].score);
    desk.tally.read_calls += 1;
    desk.tally.cuts += (answer & 1) as u64;
    put_call(desk, LENGTHS, c, answer, &after, given);
}

/// Writes a refused call, and gives it to the crate.
pub fn refused(desk: &mut Desk, lengths: (u64, u64), s: &State, c: &Call, fault: u32) {
    let ran = match ask_refused(s, c, fault) {
        None => Ran::NotAsked,
        Some(true) => Ran::Through,
        Some(false) => Ran::Stopped,
    };
    desk.tally.refusal(fault, ran);
    put_call(desk, lengths, c, -i64::from(fault), s, None);
}
