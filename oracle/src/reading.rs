//! Document 01's detector as a program, in its own order and words, with document 02's release number, depths, pair
//! numbers and refusal of NaNs. It says which refusal is due, and what the crate's answer should be; where the two differ the
//! oracle says so.
use crate::sizes::{COUNT, FIRST, LAST, LENGTH, NUMBERS, OFFSET, PAIRS, RELEASE, ROOM, SCORES, SET_LIMIT};
use crate::state::{Call, Entry, State};

pub const NONE: u64 = 0;
pub const FAST: u64 = 1;
pub const STANDARD: u64 = 2;

/// 5: "a depth other than 8, 10, 12".
const DEPTHS: [u64; 3] = [8, 10, 12];

/// A threshold of 8 bits at the state's depth: times the depth, over 8.
fn at_depth(s: &State, threshold: f64) -> f64 {
    threshold * s.numbers[2] as f64 / 8.0
}

/// Whether frames are reduced.
pub fn scaled(s: &State) -> bool {
    s.mode() == FAST && s.numbers[0].min(s.numbers[1]) > 240
}

/// A fresh detector's state over what stood there: the numbers before the pair numbers are written, these and the scores stay.
pub fn fresh(settings: &[u64; 7], before: &State) -> State {
    let mut s = before.clone();
    s.numbers[..PAIRS].fill(0);
    s.numbers[..7].copy_from_slice(settings);
    s.numbers[OFFSET] = s.ahead();
    s
}

pub fn fresh_fault(n: &[u64; 7]) -> u32 {
    if settings_fault_6(n[0], n[1], n[4]) {
        return 6;
    }
    if !DEPTHS.contains(&n[2]) { 5 } else { 0 }
}

fn settings_fault_6(width: u64, height: u64, mode: u64) -> bool {
    !(1..=8192).contains(&width) || !(1..=8192).contains(&height) || mode > 2
}

pub fn scale_factor(width: u64, height: u64, mode: u64) -> i64 {
    if settings_fault_6(width, height, mode) {
        return -6;
    }
    if mode != FAST {
        return 1;
    }
    match width.min(height) {
        0..=240 => 1,
        241..=480 => 2,
        481..=720 => 4,
        721..=1080 => 8,
        1081..=1600 => 16,
        _ => 32,
    }
}

/// What 10 forbids: "NaN, infinite or below 0". Document 02's L7: "10 now covers NaN everywhere in a read list".
fn is_forbidden(x: f64) -> bool {
    x.is_nan() || x.is_infinite() || x < 0.0
}

/// Refusal 11. Of an entry 10 is asked for the inter cost alone: older states hold NaNs in the other four.
fn state_fault(s: &State) -> bool {
    let n = &s.numbers;
    if settings_fault_6(n[0], n[1], n[4]) || !DEPTHS.contains(&n[2]) {
        return true;
    }
    let most = if s.ahead() == 5 { 10 } else { ROOM as u64 - 1 };
    if n[COUNT] > most {
        return true;
    }
    if n[COUNT] == 0 {
        return n[OFFSET] != s.ahead();
    }
    n[OFFSET] >= n[COUNT] || s.entries().iter().any(|e| is_forbidden(e.score[0])) || entries_fault(s)
}

/// What document 02's L5 adds to 11, for a state with entries, in its order and words. Sums are exact numbers.
fn entries_fault(s: &State) -> bool {
    let (n, mode, pairs) = (&s.numbers, s.mode(), s.pairs());
    let exact = |x: u64| u128::from(x);
    // "Entries in None mode or before any accepted call."
    if mode == NONE {
        return true;
    }
    if n[LAST] == 0 {
        return true;
    }
    // "Two neighbours' numbers that neither fall by one nor are equal": the front one of two comes first.
    let neighbours = pairs.windows(2).map(|two| (exact(two[0]), exact(two[1])));
    if neighbours.clone().any(|(front, back)| front != back + 1 && front != back) {
        return true;
    }
    // "More than one equal pair of neighbours."
    if neighbours.filter(|(front, back)| front == back).count() > 1 {
        return true;
    }
    // "Where the last length is above A, a front number other than last number + o."
    n[LENGTH] > s.ahead() && exact(pairs[0]) != exact(n[LAST]) + exact(n[OFFSET])
}

/// Refusal 7.
fn number_fault(s: &State, c: &Call) -> bool {
    let before = s.numbers[LAST] != 0;
    c.frame == 0 || c.frame >= 1 << 32 || c.previous > c.frame || (before && c.frame - 1 != s.numbers[LAST])
}

/// Refusal 10. Standard mode reads all three lists, Fast the inter costs, None none.
fn list_fault(mode: u64, c: &Call) -> bool {
    let due = c.set.saturating_sub(1);
    let bad = |list: &[f64]| list.len() as u64 != due || list.iter().any(|&x| is_forbidden(x));
    (mode != NONE && bad(&c.inter)) || (mode == STANDARD && (bad(&c.importance) || bad(&c.threshold)))
}

/// The refusal that is due, or 0. The lengths are those of the two places of the state.
pub fn step_fault(lengths: (u64, u64), s: &State, c: &Call) -> u32 {
    if lengths != (NUMBERS as u64, SCORES as u64) || state_fault(s) {
        return 11;
    }
    let before = s.numbers[LAST] != 0;
    if number_fault(s, c) {
        return 7;
    }
    if c.set > SET_LIMIT || (before && c.set > s.numbers[LENGTH]) {
        return 8;
    }
    if c.set == 1 && s.ahead() == 0 && s.offset() == 0 && s.mode() != NONE {
        return 9;
    }
    if list_fault(s.mode(), c) { 10 } else { 0 }
}

/// From document 01's release number to document 02's: "one less than document 01 says, but not below 0", since the first
/// pair that is still needed has its left frame one before.
fn one_less(release: u64) -> u64 {
    release.saturating_sub(1)
}

/// What an accepted call answers (bit 0: a cut; bit 1: a score), and the state after it.
pub fn step(s: &State, c: &Call) -> (i64, State) {
    let mut next = s.clone();
    let n = c.frame;
    if s.numbers[LAST] == 0 {
        next.numbers[FIRST] = n;
        next.numbers[RELEASE] = one_less(n);
    }
    next.numbers[LAST] = n;
    next.numbers[LENGTH] = c.set;
    if c.set >= 7 && s.ahead() == 5 && s.mode() != NONE {
        next.numbers[RELEASE] = one_less(next.numbers[FIRST].max(n.saturating_sub(9)));
    }
    let answer = rules(s, c, &mut next);
    (answer, next)
}

fn rules(s: &State, c: &Call, next: &mut State) -> i64 {
    let (ahead, length, distance) = (s.ahead(), c.set, c.frame - c.previous);
    let (min, max) = (s.numbers[5], s.numbers[6]);
    if length <= ahead {
        return 0;
    }
    if s.mode() == NONE {
        return i64::from(distance >= min && distance >= max);
    }
    let mut offset = s.offset();
    let mut entries = s.entries();
    let mut repeat = false;
    if entries.is_empty() {
        if offset > 0 && length > offset + 1 {
            (0..offset).for_each(|k| score(s, c, offset, &mut entries, k, false));
        } else {
            (0..length - 1).for_each(|k| score(s, c, offset, &mut entries, k, false));
            offset = length - 2;
            repeat = true;
        }
    }
    if length > offset + 1 {
        score(s, c, offset, &mut entries, offset, repeat);
    } else {
        offset -= 1;
    }
    let mut cut = decide(s, offset as usize, &entries);
    if distance < min {
        cut = false;
    } else if distance >= max {
        cut = true;
    }
    if entries.len() as u64 > 5 + ahead {
        entries.pop();
    }
    next.put(offset, &entries);
    2 + i64::from(cut)
}

/// Scores item k and puts it in front. It is pair n + k, the first time and where it is scored again.
fn score(s: &State, c: &Call, offset: u64, entries: &mut Vec<Entry>, k: u64, repeat: bool) {
    let (at, pair) = (k as usize, c.frame + k);
    let inter = c.inter[at];
    if s.mode() == FAST {
        let delta = if repeat && scaled(s) { 0.0 } else { inter };
        entries.insert(0, Entry { pair, score: [delta, delta, delta, delta, at_depth(s, 18.0)] });
        return;
    }
    let mut backward = 0.0;
    let first = entries.len().min(offset as usize);
    if offset > 0 {
        if c.frame + k != 1 {
            backward = f64::MAX;
            for entry in &entries[..first] {
                let difference = inter - entry.score[0];
                if difference < backward {
                    backward = difference;
                }
                if backward < 0.0 {
                    backward = 0.0;
                    break;
                }
            }
        }
        for (i, entry) in entries[..first].iter_mut().enumerate() {
            let difference = entry.score[0] - inter;
            let forward = &mut entry.score[3];
            if i == 0 || difference < *forward {
                *forward = difference;
            }
            if *forward < 0.0 {
                *forward = 0.0;
            }
        }
    }
    entries.insert(0, Entry { pair, score: [inter, c.importance[at], backward, 0.0, c.threshold[at]] });
}

fn decide(s: &State, offset: usize, entries: &[Entry]) -> bool {
    let over_forward = |e: &&Entry| e.score[3] >= e.score[4];
    let over_backward = |e: &&Entry| e.score[2] >= e.score[4];
    let important = entries[offset..].iter().any(|e| e.score[1] >= at_depth(s, 7.0));
    if !important || !over_forward(&&entries[offset]) {
        return false;
    }
    let before = entries[..offset].iter().filter(over_forward).count();
    let after = entries[offset + 1..].iter().filter(over_backward).count();
    let due = if s.mode() == FAST { 2 } else { 1 };
    (before == 0 && (after == 0 || after >= due)) || (after == 0 && before == 1 && over_forward(&&entries[0]))
}
