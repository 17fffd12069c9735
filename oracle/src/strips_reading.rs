//! Document 02's request L6 as a program, and L7's part of it: two frames that come a few rows at a time. What is refused, and what
//! stands in the carry, in the room and among the costs after a call.
use crate::measures_reading::{self as read, Lent, lacks_block, suits};
use crate::sample::{Sample, most};
use crate::sizes::CARRY;

/// The places of the carry.
pub const WIDTH: usize = 0;
pub const HEIGHT: usize = 1;
pub const DEPTH: usize = 2;
pub const ROWS: usize = 3;
pub const DIFFERENCE: usize = 4;
pub const TOTAL: usize = 5;

/// The most rows of a strip; how many rows of each frame the room holds.
pub const STRIP: u64 = 64;
pub const HELD: u64 = 8;

/// What a caller keeps from one call to the next.
#[derive(Clone, Debug, PartialEq)]
pub struct Kept<T> {
    pub carry: Vec<u64>,
    pub room: Vec<T>,
    pub costs: Vec<u32>,
}

/// Refusals in the order in which they are tested, and whether each applies.
pub type Order = Vec<(u32, bool)>;

/// The first that applies, 0 for none.
pub fn fault(order: &Order) -> u32 {
    order.iter().find(|test| test.1).map_or(0, |test| test.0)
}

fn accept(order: &Order) -> Result<(), u32> {
    match fault(order) {
        0 => Ok(()),
        fault => Err(fault),
    }
}

/// A size that 1 forbids.
fn is_bad(side: u64) -> bool {
    side == 0 || side > 8192
}

/// The largest sample of a carry's depth, where that is one.
pub fn largest(carry: &[u64]) -> Option<u64> {
    carry.get(DEPTH).filter(|&depth| [8, 10, 12].contains(depth)).map(|&depth| most(depth))
}

/// 11: "a carry with a size that 1 forbids, more rows than the height or a total above rows × width × the largest sample", or
/// one of another length. Without a largest sample nothing is said of the totals.
fn is_none(carry: &[u64], largest: Option<u64>) -> bool {
    let &[width, height, _, rows, difference, total] = carry else { return true };
    if is_bad(width) || is_bad(height) || rows > height {
        return true;
    }
    largest.is_some_and(|sample| difference > rows * width * sample || total > rows * width * sample)
}

pub fn start_order(depth: u64, width: u64, height: u64, len: usize) -> Order {
    let is_known = [8, 10, 12].contains(&depth);
    vec![(11, len != CARRY), (5, !is_known), (1, is_bad(width) || is_bad(height))]
}

pub fn start(depth: u64, width: u64, height: u64, carry: &mut [u64]) -> Result<(), u32> {
    accept(&start_order(depth, width, height, carry.len()))?;
    carry.copy_from_slice(&[width, height, depth, 0, 0, 0]);
    Ok(())
}

/// 1 of a strip: its height may be 0.
fn is_misshaped<T>(strip: &Lent<T>) -> bool {
    is_bad(strip.width) || strip.height > 8192 || strip.stride < strip.width
}

/// 2 of a strip, which one of 0 rows passes.
fn is_short<T>(strip: &Lent<T>) -> bool {
    let [origin, height, stride, width] = [strip.origin, strip.height, strip.stride, strip.width].map(u128::from);
    height != 0 && origin + (height - 1) * stride + width > strip.samples.len() as u128
}

/// 4: costs for every whole block of the frame, and 16 rows of room.
fn lacks_room<T>(kept: &Kept<T>) -> bool {
    let [width, height] = [kept.carry[WIDTH], kept.carry[HEIGHT]].map(u128::from);
    (kept.costs.len() as u128) < (width / 8) * (height / 8) || (kept.room.len() as u128) < 2 * u128::from(HELD) * width
}

/// 19 is about the whole frames: "strips included, at any strip or end". Of a carry of another length nothing more is said.
pub fn add_order<T: Sample>(kept: &Kept<T>, a: &Lent<T>, b: &Lent<T>) -> Order {
    let &[width, height, depth, rows, _, _] = &kept.carry[..] else { return vec![(11, true)] };
    let none = is_none(&kept.carry, largest(&kept.carry));
    let many = [a, b].iter().any(|strip| strip.height > STRIP || strip.height > height.saturating_sub(rows));
    let odd = !suits::<T>(depth);
    let [(a1, a2), (b1, b2)] = [a, b].map(|strip| (is_misshaped(strip), is_short(strip)));
    let differ = (a.width, a.height) != (b.width, b.height) || a.width != width;
    let small = lacks_block(width, height);
    let lacking = lacks_room(kept);
    let large = !(odd || a1 || a2 || b1 || b2) && (a.exceeds(depth) || b.exceeds(depth));
    vec![(11, none), (17, many), (5, odd), (1, a1), (2, a2), (1, b1), (2, b2), (3, differ), (19, small), (4, lacking), (16, large)]
}

/// How many rows have come.
pub fn add<T: Sample>(kept: &mut Kept<T>, a: &Lent<T>, b: &Lent<T>) -> Result<u64, u32> {
    accept(&add_order(kept, a, b))?;
    let come = kept.carry[ROWS];
    for row in 0..a.height {
        let y = come + row;
        kept.carry[DIFFERENCE] += (0..a.width).map(|x| a.sample(x, row).abs_diff(b.sample(x, row))).sum::<u64>();
        put(kept, y, row, a, b);
        if y % HELD == HELD - 1 {
            finish(kept, y / HELD);
        }
    }
    kept.carry[ROWS] = come + a.height;
    Ok(kept.carry[ROWS])
}

/// Row y of the first frame and of the second go to the room.
fn put<T: Sample>(kept: &mut Kept<T>, y: u64, row: u64, a: &Lent<T>, b: &Lent<T>) {
    for x in 0..a.width {
        kept.room[((y % HELD) * a.width + x) as usize] = a.samples[a.place(x, row)];
        kept.room[((HELD + y % HELD) * a.width + x) as usize] = b.samples[b.place(x, row)];
    }
}

/// The rows that are held of one frame, as a plane.
fn held<T: Sample>(kept: &Kept<T>, from: u64) -> Lent<T> {
    let width = kept.carry[WIDTH];
    Lent { samples: kept.room.clone(), width, height: HELD, stride: width, origin: from * width }
}

/// A row of blocks has come: it is measured from the room. Where that holds what is no sample, it counts nothing.
fn finish<T: Sample>(kept: &mut Kept<T>, row: u64) {
    let (width, depth) = (kept.carry[WIDTH], kept.carry[DEPTH]);
    let (a, b) = (held(kept, 0), held(kept, HELD));
    if !a.exceeds(depth) && !b.exceeds(depth) {
        kept.carry[TOTAL] += read::importance_total(&a, &b);
    }
    if !b.exceeds(depth) {
        let (costs, _) = read::intra(depth, &b, &b);
        let at = (row * (width / 8)) as usize;
        kept.costs[at..at + costs.len()].copy_from_slice(&costs);
    }
}

pub fn end_order(carry: &[u64]) -> Order {
    let &[width, height, _, rows, _, _] = carry else { return vec![(11, true)] };
    let none = is_none(carry, largest(carry));
    vec![(11, none), (5, largest(carry).is_none()), (19, lacks_block(width, height)), (18, rows < height)]
}

/// How many whole blocks there are, the difference and the importance total.
pub fn end(carry: &[u64]) -> Result<[u64; 3], u32> {
    accept(&end_order(carry))?;
    Ok([(carry[WIDTH] / 8) * (carry[HEIGHT] / 8), carry[DIFFERENCE], carry[TOTAL]])
}
