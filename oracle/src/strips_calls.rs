//! Single calls of strips from any carry, with any room: sound ones, and such to which one refusal applies or several.
use crate::deep_cases::{LARGEST, exceed};
use crate::desk::Desk;
use crate::measures_reading::Lent;
use crate::plane_cases::{lent, picture};
use crate::random::Random;
use crate::sample::{Sample, most};
use crate::sizes::CARRY;
use crate::strips_cases::{Call, add_of, end_of, kept, start_of, strip};
use crate::strips_reading::{DEPTH, DIFFERENCE, HEIGHT, HELD, ROWS, STRIP, TOTAL, WIDTH, largest};

/// Depths that are none, and the three: which of these suits is the word's matter.
const DEPTHS: [u64; 12] = [0, 7, 8, 8, 9, 10, 10, 11, 12, 12, 16, u64::MAX];
const SIDES: [u64; 4] = [0, 8193, 1 << 32, u64::MAX];
/// How many refusals an add has, one behind the other, and the place of 19 among them; the same of an end.
const ADD: u64 = 11;
const ADD_SMALL: u64 = 8;
const END: u64 = 4;
const END_SMALL: u64 = 2;

/// A total of so many samples, at most as large as at one of the depths: at its edge, or anywhere below.
fn total(r: &mut Random, depth: u64, samples: u64) -> u64 {
    let edge = samples * most(if r.once_in(3) { r.of(&[8, 10, 12]) } else { depth });
    if r.once_in(3) { edge } else { r.below(samples * most(depth) + 1) }
}

/// A carry after some rows, with totals that it may have, but where another depth's edge was drawn.
fn carry(r: &mut Random, depth: u64, (width, height): (u64, u64)) -> Vec<u64> {
    let any = r.below(height + 1);
    let rows = r.of(&[0, any, any, any, any / HELD * HELD, height]);
    vec![width, height, depth, rows, total(r, depth, rows * width), total(r, depth, rows * width)]
}

/// How many rows a strip has: in one call of twelve too many.
fn rows(r: &mut Random, left: u64) -> u64 {
    let most = left.min(STRIP);
    match r.below(12) {
        0 => r.of(&[left + 1, STRIP + 1]),
        1 => 0,
        2..=5 => most,
        _ => r.below(most + 1),
    }
}

/// What is no sample in a room of samples: in one place, in a row, or everywhere.
fn spoil<T: Sample>(r: &mut Random, depth: u64, width: u64, room: &mut [T]) {
    let large = T::of(r.of(&[most(depth) + 1, most(depth) + 1, LARGEST]));
    let (row, any) = ((r.below(2 * HELD) * width) as usize, r.below(width));
    match r.below(4) {
        0 | 1 => room[row + r.of(&[0, width - 1, any]) as usize] = large,
        2 => room[row..row + width as usize].fill(large),
        _ => room.fill(large),
    }
}

/// A call that is sound, but where `rows` or `total` drew what is not. The room's rows are those of two planes.
fn call<T: Sample>(r: &mut Random, sides: (u64, u64)) -> Call<T> {
    let (depth, (width, height)) = (T::depth(r), sides);
    let carry = carry(r, depth, sides);
    let rows = rows(r, height - carry[ROWS]);
    let [a, b] = [0; 2].map(|_| lent::<T>(r, depth, width, rows.max(1)));
    let (a, b) = (strip(r, &a, 0, rows), strip(r, &b, 0, rows));
    let mut kept = kept::<T>(r, carry, width, height);
    let held = picture(r, depth, (2 * HELD * width) as usize);
    kept.room[..held.len()].copy_from_slice(&held);
    if T::IS_DEEP && r.once_in(3) {
        spoil(r, depth, width, &mut kept.room);
    }
    Call { kept, a, b }
}

/// A carry for which 11 is due.
fn hurt_carry(r: &mut Random, carry: &mut Vec<u64>) {
    let edge = carry[ROWS].saturating_mul(carry[WIDTH]).saturating_mul(largest(carry).unwrap_or(most(8)));
    match r.below(7) {
        0 => carry.resize(r.of(&[0, 1, CARRY - 1, CARRY + 1, 2 * CARRY]), 0),
        1 => carry[WIDTH] = r.of(&SIDES),
        2 => carry[HEIGHT] = r.of(&SIDES),
        3 => carry[ROWS] = r.of(&[carry[HEIGHT].saturating_add(1), 8193, u64::MAX]),
        4 => carry[DIFFERENCE] = r.of(&[edge.saturating_add(1), u64::MAX]),
        5 => carry[TOTAL] = r.of(&[edge.saturating_add(1), u64::MAX]),
        _ => (carry[DIFFERENCE], carry[TOTAL]) = (edge.saturating_add(1), edge.saturating_add(1)),
    }
}

/// More rows than are left, or than a strip may have.
fn hurt_rows<T>(r: &mut Random, c: &mut Call<T>) {
    let past = c.kept.carry[HEIGHT] - c.kept.carry[ROWS] + 1;
    let which = r.of(&[0, 0, 1, 2]);
    if which == 0 && c.a.height != 0 && c.a.height <= c.kept.carry[HEIGHT] {
        c.kept.carry[ROWS] = c.kept.carry[HEIGHT] - c.a.height + 1;
        return;
    }
    let strip = if which == 1 { &mut c.a } else { &mut c.b };
    strip.height = r.of(&[past, STRIP + 1, u64::MAX]);
}

/// 1 of a strip.
fn misshape<T>(r: &mut Random, l: &mut Lent<T>) {
    match r.below(3) {
        0 => l.width = r.of(&SIDES),
        _ => l.stride = r.of(&[l.width - 1, 0]),
    }
}

/// 2 of a strip that has rows.
fn shorten<T>(r: &mut Random, l: &mut Lent<T>) {
    let end = l.height.max(1).saturating_sub(1).saturating_mul(l.stride.min(1 << 40)) + l.width;
    match r.below(3) {
        0 => l.origin = r.of(&[u64::MAX, 1 << 63, l.samples.len() as u64]),
        _ => l.samples.truncate((l.origin.min(1 << 40) + end).saturating_sub(1) as usize),
    }
}

/// 3: one strip's width or height is another, or the width of both.
fn differ<T>(r: &mut Random, c: &mut Call<T>) {
    let less = |n: u64| n.max(2) - 1;
    match r.below(4) {
        0 => c.a.width = less(c.a.width),
        1 => c.b.width = less(c.b.width),
        2 => (c.a.width, c.b.width) = (less(c.a.width), less(c.b.width)),
        _ => c.b.height = c.b.height.saturating_sub(1),
    }
}

/// 4: a place too few among the costs or in the room.
fn lack<T>(r: &mut Random, c: &mut Call<T>) {
    let [width, height] = [c.kept.carry[WIDTH], c.kept.carry[HEIGHT]];
    let (blocks, room) = ((width / 8) * (height / 8), 2 * HELD * width);
    if blocks != 0 && r.once_in(2) {
        c.kept.costs.truncate(r.of(&[blocks - 1, blocks - 1, 0]) as usize);
    } else {
        c.kept.room.truncate(r.of(&[room - 1, room - 1, 8 * width, 0]) as usize);
    }
}

/// What the refusal at a place of the order is about goes wrong. The last come first: they want a call that is sound before them.
fn hurt<T: Sample>(r: &mut Random, at: u64, c: &mut Call<T>) {
    let depth = c.kept.carry[DEPTH];
    let first = r.once_in(2);
    match at {
        0 => hurt_carry(r, &mut c.kept.carry),
        1 => hurt_rows(r, c),
        2 => c.kept.carry[DEPTH] = r.of(&DEPTHS),
        3 => misshape(r, &mut c.a),
        4 => shorten(r, &mut c.a),
        5 => misshape(r, &mut c.b),
        6 => shorten(r, &mut c.b),
        7 => differ(r, c),
        // The call was made of such sides.
        ADD_SMALL => (),
        9 => lack(r, c),
        _ if T::IS_DEEP && c.a.height != 0 => exceed(r, depth, if first { &mut c.a } else { &mut c.b }),
        _ => (),
    }
}

/// Nothing, one thing, two neighbours of the order, or any two.
fn hurts(r: &mut Random, order: u64) -> Vec<u64> {
    let (at, other) = (r.below(order), r.below(order));
    let mut hurts = match r.below(6) {
        0 | 1 => vec![],
        2 => vec![at],
        3 | 4 => vec![(at + 1).min(order - 1), at],
        _ => vec![at.max(other), at.min(other)],
    };
    hurts.dedup();
    hurts
}

/// Where 19 is to apply, one of the sides is below 8: the call that is made of them is sound but for that.
fn or_small(r: &mut Random, (width, height): (u64, u64), is_small: bool) -> (u64, u64) {
    let side = r.from_to(1, 7);
    if is_small { r.of(&[(side, height), (width, side)]) } else { (width, height) }
}

pub fn add<T: Sample>(desk: &mut Desk, r: &mut Random, sides: (u64, u64)) {
    let hurts = hurts(r, ADD);
    let sides = or_small(r, sides, hurts.contains(&ADD_SMALL));
    let mut c = call::<T>(r, sides);
    for at in hurts {
        hurt(r, at, &mut c);
    }
    add_of(desk, &c.kept, &c.a, &c.b);
}

/// 11, 5, 1.
pub fn start(desk: &mut Desk, r: &mut Random) {
    let sides = [1, 8, 9, 8191, 8192];
    let (mut depth, mut width, mut height) = (r.of(&[8, 10, 12]), r.of(&sides), r.of(&sides));
    let mut carry: Vec<u64> = (0..CARRY).map(|_| r.word()).collect();
    for at in hurts(r, 3) {
        match at {
            0 => carry.resize(r.of(&[0, 1, CARRY - 1, CARRY + 1, 2 * CARRY]), 7),
            1 => depth = r.of(&[0, 7, 9, 11, 16, 1 << 31, u64::from(u32::MAX)]),
            _ if r.once_in(2) => width = r.of(&SIDES),
            _ => height = r.of(&SIDES),
        }
    }
    start_of(desk, depth, width, height, &mut carry);
}

/// 11, 5, 19, 18.
pub fn end(desk: &mut Desk, r: &mut Random, sides: (u64, u64)) {
    let (depth, hurts) = (r.of(&[8, 10, 12]), hurts(r, END));
    let sides = or_small(r, sides, hurts.contains(&END_SMALL));
    let mut carry = carry(r, depth, sides);
    carry[ROWS] = carry[HEIGHT];
    for at in hurts {
        match at {
            0 => hurt_carry(r, &mut carry),
            1 => carry[DEPTH] = r.of(&DEPTHS),
            END_SMALL => (),
            _ => carry[ROWS] -= r.from_to(1, carry[HEIGHT]),
        }
    }
    end_of(desk, &carry);
}
