//! Strips at the edges, whatever the seed draws: each refusal by itself, each with each that is tested behind it, of which the first
//! is due, frames without a block, and rooms that hold what is no sample.
use crate::deep_cases::LARGEST;
use crate::desk::Desk;
use crate::edges::flat;
use crate::measures_reading::Lent;
use crate::random::Random;
use crate::sample::{Sample, most};
use crate::sizes::CARRY;
use crate::strips_cases::{Call, add_of, end_of, film_of, start_of};
use crate::strips_reading::{self as read, DEPTH, DIFFERENCE, HEIGHT, Kept, ROWS, TOTAL, WIDTH, fault};

/// Frames of 17 × 20: two blocks in a row, two rows of blocks and four rows below them.
const WIDE: u64 = 17;
const HIGH: u64 = 20;
const BLOCKS: usize = 4;
/// A side that has no block.
const SMALL: u64 = 7;
/// Five rows have come, and three are to come: with them a row of blocks is whole.
const COME: u64 = 5;
const NEXT: u64 = 3;

/// A sound call. The two frames differ by one in every sample, and so do the rows that are held.
fn sound<T: Sample>(depth: u64) -> Call<T> {
    let middle = 1 << (depth - 1);
    let held = |value: u64| vec![T::of(value); 8 * WIDE as usize];
    let room = [held(middle), held(middle + 1)].concat();
    let carry = vec![WIDE, HIGH, depth, COME, COME * WIDE, 0];
    Call { kept: Kept { carry, room, costs: vec![9; BLOCKS] }, a: flat(WIDE, NEXT, middle), b: flat(WIDE, NEXT, middle + 1) }
}

type Change<T> = fn(&mut Call<T>);

/// The sound call with some changes, and the refusal that is due. The reading is asked all the same, so that a mutant of it makes a
/// list, which is wrong here.
fn add<T: Sample>(desk: &mut Desk, depth: u64, changes: &[Change<T>], due: u32) {
    let mut c = sound(depth);
    changes.iter().for_each(|change| change(&mut c));
    desk.tally.due(fault(&read::add_order(&c.kept, &c.a, &c.b)) == due);
    add_of(desk, &c.kept, &c.a, &c.b);
}

fn bare<T>(c: &mut Call<T>) {
    (c.a.height, c.b.height) = (0, 0);
}

fn all_rows<T>(c: &mut Call<T>) {
    c.kept.carry[ROWS] = HIGH;
}

/// Frames and strips have fewer columns, by as many each, so that there is no block.
fn narrow<T>(c: &mut Call<T>) {
    for width in [&mut c.kept.carry[WIDTH], &mut c.a.width, &mut c.b.width] {
        *width -= WIDE - SMALL;
    }
}

/// One change for each refusal, in their order: 11, 17, 5, 1 and 2 of the first, 1 and 2 of the second, 3, 19, 4. 16 is behind them.
/// Each holds for narrow frames too.
fn changes<T: Sample>() -> [(u32, Change<T>); 10] {
    [
        (11, |c| c.kept.carry[HEIGHT] = 8193),
        (17, |c| c.kept.carry[ROWS] = HIGH - NEXT + 1),
        (5, |c| c.kept.carry[DEPTH] = 9),
        (1, |c| c.a.stride = SMALL - 2),
        (2, |c| c.a.samples.truncate(9)),
        (1, |c| c.b.stride = SMALL - 2),
        (2, |c| c.b.samples.truncate(9)),
        (3, |c| (c.a.width, c.b.width) = (WIDE - 1, WIDE - 1)),
        (19, narrow),
        (4, |c| c.kept.room.truncate(16 * SMALL as usize - 1)),
    ]
}

/// Each alone, and with each of those behind it.
fn orders<T: Sample>(desk: &mut Desk, depth: u64) {
    let changes = changes::<T>();
    let large: Change<T> = |c| c.b.samples[WIDE as usize - 1] = T::of(1 << c.kept.carry[DEPTH]);
    let front: Change<T> = |c| c.b.samples[0] = T::of(1 << c.kept.carry[DEPTH]);
    for (at, &(due, change)) in changes.iter().enumerate() {
        add(desk, depth, &[change], due);
        for &(_, next) in &changes[at + 1..] {
            add(desk, depth, &[change, next], due);
        }
    }
    if T::IS_DEEP {
        add(desk, depth, &[large], 16);
        add(desk, depth, &[large, changes[7].1], 3);
        add(desk, depth, &[front, changes[8].1], 19);
        add(desk, depth, &[large, changes[9].1], 4);
    }
}

/// Carries: of another length, with other sizes, with totals at their edge and one above it.
fn carries<T: Sample>(desk: &mut Desk, depth: u64) {
    let wrong: [Change<T>; 7] = [
        |c| c.kept.carry.truncate(CARRY - 1),
        |c| c.kept.carry.push(0),
        |c| c.kept.carry[WIDTH] = 0,
        |c| c.kept.carry[WIDTH] = 8193,
        |c| c.kept.carry[ROWS] = HIGH + 1,
        |c| c.kept.carry[DIFFERENCE] = COME * WIDE * most(c.kept.carry[DEPTH]) + 1,
        |c| c.kept.carry[TOTAL] = COME * WIDE * most(c.kept.carry[DEPTH]) + 1,
    ];
    for change in wrong {
        add::<T>(desk, depth, &[change], 11);
    }
    add::<T>(desk, depth, &[|c| (DIFFERENCE..=TOTAL).for_each(|at| c.kept.carry[at] = COME * WIDE * most(c.kept.carry[DEPTH]))], 0);
    // The largest sample is that of the carry's depth, whatever the word is; where that is none, 5 follows.
    let other = if depth == 8 { 12 } else { 8 };
    for (depth_of_carry, total) in [(other, 255), (other, 4095), (9, u64::MAX / 4096)] {
        let mut c = sound::<T>(depth);
        (c.kept.carry[DEPTH], c.kept.carry[TOTAL]) = (depth_of_carry, COME * WIDE * total);
        let due = if (depth_of_carry, total) == (8, 4095) { 11 } else { 5 };
        desk.tally.due(fault(&read::add_order(&c.kept, &c.a, &c.b)) == due);
        add_of(desk, &c.kept, &c.a, &c.b);
    }
}

/// Strips of no rows, and of too many.
fn rows<T: Sample>(desk: &mut Desk, depth: u64) {
    add::<T>(desk, depth, &[bare], 0);
    add::<T>(desk, depth, &[bare, all_rows], 0);
    add::<T>(desk, depth, &[all_rows], 17);
    add::<T>(desk, depth, &[bare, |c| (c.a.samples, c.b.origin) = (vec![], u64::MAX)], 0);
    add::<T>(desk, depth, &[bare, |c| c.a.width = 0], 1);
    add::<T>(desk, depth, &[bare, |c| c.b.stride = WIDE - 1], 1);
    add::<T>(desk, depth, &[bare, |c| c.b.width = WIDE - 1], 3);
    add::<T>(desk, depth, &[|c| c.b.height = 0], 3);
    add::<T>(desk, depth, &[bare, narrow], 19);
    add::<T>(desk, depth, &[bare, |c| c.kept.carry[HEIGHT] = SMALL], 19);
    add::<T>(desk, depth, &[bare, narrow, |c| c.kept.room.clear()], 19);
    let lacks: [Change<T>; 2] = [|c| c.kept.costs.truncate(BLOCKS - 1), |c| c.kept.room.truncate(16 * WIDE as usize - 1)];
    for lack in lacks {
        add(desk, depth, &[lack], 4);
        add(desk, depth, &[bare, lack], 4);
    }
    add::<T>(desk, depth, &[|c| c.b.height = u64::MAX], 17);
    add::<T>(desk, depth, &[|c| c.a.height = u64::MAX - COME + 1], 17);
    for (height, due) in [(64, 0), (65, 17)] {
        let (mut c, long) = (sound::<T>(depth), flat(8, height, 7));
        (c.a, c.b, c.kept.costs) = (long.clone(), long, vec![9; 25]);
        (c.kept.carry[WIDTH], c.kept.carry[HEIGHT], c.kept.carry[DIFFERENCE]) = (8, 200, 0);
        desk.tally.due(fault(&read::add_order(&c.kept, &c.a, &c.b)) == due);
        add_of(desk, &c.kept, &c.a, &c.b);
    }
}

/// What is no sample in the room: in either frame's rows, in a whole block and beside it, in a row that is written over, and behind
/// the rows. Whether the importance total rises, and whether the costs come.
fn rooms(desk: &mut Desk, depth: u64) {
    let place = |row: u64, x: u64| (row * WIDE + x) as usize;
    for (at, total, costs) in [
        (place(0, 0), 0, 1),
        (place(4, 16), 0, 1),
        (place(8, 0), 0, 0),
        (place(12, 16), 0, 0),
        (place(5, 0), 1, 1),
        (place(13, 16), 1, 1),
        (place(16, 0), 1, 1),
    ] {
        let mut c = sound::<u16>(depth);
        c.kept.room.push(0);
        c.kept.room[at] = if at % 2 == 0 { 1 << depth } else { LARGEST as u16 };
        let after = add_of(desk, &c.kept, &c.a, &c.b);
        desk.tally.due(after.carry[TOTAL] == 2 * total && (after.costs[..2] != [9, 9]) == (costs == 1));
    }
}

/// 11, 5, 1; and the sides at their edges. A start does not look for a block.
fn starts(desk: &mut Desk, depth: u64) {
    for (len, depth, width, height, due) in [
        (CARRY, depth, 1, 8192, 0),
        (CARRY, depth, 8192, 1, 0),
        (CARRY, depth, 0, 1, 1),
        (CARRY, depth, 1, 8193, 1),
        (CARRY, 9, 0, 1, 5),
        (CARRY, u64::from(u32::MAX), 1, 1, 5),
        (CARRY - 1, 9, 1, 1, 11),
        (CARRY + 1, depth, 1, 1, 11),
    ] {
        desk.tally.due(fault(&read::start_order(depth, width, height, len)) == due);
        start_of(desk, depth, width, height, &mut vec![7; len]);
    }
}

/// 11, 5, 19, 18; and the totals at their edges.
fn ends(desk: &mut Desk, depth: u64) {
    let edge = WIDE * HIGH * most(depth);
    let carry = |depth: u64, rows: u64, difference: u64, total: u64| vec![WIDE, HIGH, depth, rows, difference, total];
    for (carry, due) in [
        (carry(depth, HIGH, edge, edge), 0),
        (carry(depth, HIGH, edge + 1, 0), 11),
        (carry(depth, HIGH, 0, edge + 1), 11),
        (carry(depth, HIGH - 1, 0, edge - WIDE * most(depth) + 1), 11),
        (carry(depth, HIGH + 1, 0, 0), 11),
        (carry(9, HIGH + 1, 0, 0), 11),
        (carry(9, HIGH, 0, u64::MAX), 5),
        (carry(9, 0, 0, 0), 5),
        (carry(depth, HIGH - 1, 0, 0), 18),
        (carry(depth, 0, 0, 0), 18),
        (vec![SMALL, HIGH, depth, HIGH + 1, 0, 0], 11),
        (vec![SMALL, HIGH, 9, HIGH, 0, 0], 5),
        (vec![SMALL, HIGH, depth, HIGH, 0, 0], 19),
        (vec![WIDE, SMALL, depth, SMALL, 0, 0], 19),
        (vec![SMALL, HIGH, depth, HIGH - 1, 0, 0], 19),
        (vec![SMALL + 1, SMALL + 1, depth, SMALL + 1, 0, 0], 0),
        (vec![8193, HIGH, depth, HIGH, 0, 0], 11),
        (vec![WIDE, HIGH, depth, HIGH, 0], 11),
        (vec![WIDE, HIGH, depth, HIGH, 0, 0, 0], 11),
    ] {
        desk.tally.due(fault(&read::end_order(&carry)) == due);
        end_of(desk, &carry);
    }
}

/// A film with samples that say where they stand, cut in several ways; and films without a block.
fn films<T: Sample>(desk: &mut Desk, r: &mut Random, depth: u64) {
    let plane = |width: u64, height: u64, times: u64| Lent {
        samples: (0..width * height).map(|i| T::of(i * times & most(depth))).collect(),
        ..flat(width, height, 0)
    };
    let (a, b) = (plane(WIDE, HIGH, 7), plane(WIDE, HIGH, 11));
    for cuts in [&[20][..], &[8, 8, 4], &[5, 5, 5, 5], &[7, 1, 0, 9, 3], &[0, 15, 1, 4, 0], &[1; 20]] {
        film_of(desk, r, depth, &a, &b, cuts);
    }
    for (width, height) in [(SMALL, HIGH), (WIDE, SMALL), (SMALL, SMALL)] {
        film_of(desk, r, depth, &plane(width, height, 7), &plane(width, height, 11), &[0, 5, height - 5]);
    }
}

pub fn all<T: Sample>(desk: &mut Desk, r: &mut Random) {
    for &depth in T::DEPTHS {
        orders::<T>(desk, depth);
        carries::<T>(desk, depth);
        rows::<T>(desk, depth);
        starts(desk, depth);
        ends(desk, depth);
        films::<T>(desk, r, depth);
        if T::IS_DEEP {
            rooms(desk, depth);
        }
    }
}

/// The largest frames: one row before their end the totals have more than 32 bits.
pub fn large<T: Sample>(desk: &mut Desk) {
    for &depth in T::DEPTHS {
        let edge = 8191 * 8192 * most(depth);
        let kept = Kept {
            carry: vec![8192, 8192, depth, 8191, edge, edge],
            room: vec![T::of(0); 16 * 8192],
            costs: vec![7; 1 << 20],
        };
        let after = add_of(desk, &kept, &flat(8192, 1, 0), &flat(8192, 1, most(depth)));
        desk.tally.due(after.carry[DIFFERENCE] == 8192 * 8192 * most(depth));
        end_of(desk, &after.carry);
    }
}
