//! Two frames that come in strips, cut at any places: each call beside the reading, and the end of a film beside the crate's
//! measures of the whole planes. Without a block a film is refused, and the crate is not asked.
use scenes::_bench_internals::estimate_intra_costs;

use crate::desk::Desk;
use crate::measures_reading::{Lent, lacks_block};
use crate::plane_cases::{self, crate_importance, differ, frame, lent, plane, put, shaped, within};
use crate::random::Random;
use crate::sample::Sample;
use crate::sizes::CARRY;
use crate::stream::Kind;
use crate::strips_reading::{self as read, HELD, Kept, ROWS, STRIP, WIDTH};

type Scenes<T> = scenes::SceneChangeDetector<T>;

/// A call of a strip: what is kept, and both strips.
pub struct Call<T> {
    pub kept: Kept<T>,
    pub a: Lent<T>,
    pub b: Lent<T>,
}

/// The answer that is due, counted.
fn answer(desk: &mut Desk, due: Result<u64, u32>) -> i64 {
    desk.tally.read(due, |tally| &mut tally.strip_calls)
}

pub fn start_of(desk: &mut Desk, depth: u64, width: u64, height: u64, carry: &mut [u64]) {
    desk.tally.order("start", &read::start_order(depth, width, height, carry.len()));
    desk.out.word(depth).word(width).word(height).list(carry);
    let due = answer(desk, read::start(depth, width, height, carry).map(|()| 0));
    desk.out.answer(due).words(carry).end(Kind::StripsStart);
}

fn put_kept<T: Sample>(desk: &mut Desk, kept: &Kept<T>) {
    desk.out.list(&kept.carry);
    T::put(desk.out, &kept.room);
    desk.out.halves(&kept.costs);
}

/// A call, and what is kept after it.
pub fn add_of<T: Sample>(desk: &mut Desk, kept: &Kept<T>, a: &Lent<T>, b: &Lent<T>) -> Kept<T> {
    add_known(desk, kept, a, b, &[])
}

/// The same where the costs of the whole plane are known from elsewhere: these are due, as far as their rows have come.
fn add_known<T: Sample>(desk: &mut Desk, kept: &Kept<T>, a: &Lent<T>, b: &Lent<T>, costs: &[u32]) -> Kept<T> {
    desk.tally.order("add", &read::add_order(kept, a, b));
    put_kept(desk, kept);
    put(desk.out, a);
    put(desk.out, b);
    let mut after = kept.clone();
    let due = answer(desk, read::add(&mut after, a, b));
    if !costs.is_empty() {
        let done = (after.carry[ROWS] / HELD * (after.carry[WIDTH] / 8)) as usize;
        if after.costs[..done] != costs[..done] {
            desk.tally.differs("the costs of a strip");
        }
        after.costs[..done].copy_from_slice(&costs[..done]);
    }
    desk.out.answer(due);
    put_kept(desk, &after);
    desk.out.end(T::KINDS.strips);
    after
}

pub fn end_of(desk: &mut Desk, carry: &[u64]) {
    end_known(desk, carry, read::end(carry));
}

/// The same where the measures of the whole planes are known from elsewhere.
fn end_known(desk: &mut Desk, carry: &[u64], due: Result<[u64; 3], u32>) {
    desk.tally.order("end", &read::end_order(carry));
    let blocks = answer(desk, due.map(|end| end[0]));
    let [_, difference, total] = due.unwrap_or_default();
    desk.out.list(carry).answer(blocks).word(difference).word(total).end(Kind::StripsEnd);
}

/// A strip of no rows: its stride and origin may be any, and it needs no samples.
fn empty<T: Sample>(r: &mut Random, width: u64) -> Lent<T> {
    let samples = vec![T::of(r.word()); r.of(&[0, 0, 1, 9])];
    Lent { samples, width, height: 0, stride: r.of(&[width, width + 3, u64::MAX]), origin: r.of(&[0, 5, 1 << 63, u64::MAX]) }
}

/// Some rows of a plane in a memory of their own. What is not visible there is any word.
pub fn strip<T: Sample>(r: &mut Random, of: &Lent<T>, from: u64, rows: u64) -> Lent<T> {
    if rows == 0 {
        return empty(r, of.width);
    }
    let (mut l, len) = shaped(r, of.width, rows);
    l.samples = vec![T::of(r.word()); len];
    for y in 0..rows {
        let (at, row) = (l.place(0, y), of.place(0, from + y));
        l.samples[at..at + of.width as usize].copy_from_slice(&of.samples[row..row + of.width as usize]);
    }
    l
}

/// Where a film is cut: how many rows each strip has. Some have none, behind the last row too.
fn cuts(r: &mut Random, height: u64) -> Vec<u64> {
    let (taste, mut cuts, mut left) = (r.below(8), Vec::new(), height);
    while left != 0 || r.once_in(6) {
        let rows = match taste {
            0 => 1,
            1 => HELD,
            2 => r.of(&[7, 8, 9]),
            3 => r.of(&[0, 0, 1, 2, 3]),
            4 => r.of(&[5, 16, 63, STRIP]),
            5 => STRIP,
            _ => r.below(STRIP + 1),
        };
        cuts.push(rows.min(left));
        left -= rows.min(left);
    }
    cuts
}

/// A room and costs, as many as there must be and some more: they hold any word.
pub fn kept<T: Sample>(r: &mut Random, carry: Vec<u64>, width: u64, height: u64) -> Kept<T> {
    let (room, costs) = (2 * HELD * width + r.of(&[0, 0, 1, 40]), (width / 8) * (height / 8) + r.below(3));
    Kept { carry, room: vec![T::of(r.word()); room as usize], costs: vec![r.word() as u32; costs as usize] }
}

/// What the crate measures of the whole planes: the end's numbers, and the second one's costs.
fn whole<T: Sample>(desk: &mut Desk, depth: u64, a: &Lent<T>, b: &Lent<T>) -> ([u64; 3], Vec<u32>) {
    let difference = Scenes::<T>::door_difference(&plane(a), &plane(b));
    let (total, _) = crate_importance(desk, depth, a, b);
    let costs = estimate_intra_costs(&mut plane(b), &frame(b, depth), within::<T>(depth) as usize).to_vec();
    desk.tally.measures += 3;
    ([b.blocks(), difference, total], costs)
}

/// Both planes come in strips of so many rows; what is kept then. Each strip has a stride, an origin and a memory of its own.
fn come<T: Sample>(desk: &mut Desk, r: &mut Random, depth: u64, planes: [&Lent<T>; 2], cuts: &[u64], costs: &[u32]) -> Kept<T> {
    let (width, height) = (planes[0].width, planes[0].height);
    let mut carry: Vec<u64> = (0..CARRY).map(|_| r.word()).collect();
    start_of(desk, depth, width, height, &mut carry);
    let (mut kept, mut come) = (kept(r, carry, width, height), 0);
    for &rows in cuts {
        let [first, second] = planes.map(|plane| strip(r, plane, come, rows));
        kept = add_known(desk, &kept, &first, &second, costs);
        come += rows;
    }
    kept
}

/// Both planes in strips, from the start to the end. Without a block each strip is refused, so that no row has come, and the end.
pub fn film_of<T: Sample>(desk: &mut Desk, r: &mut Random, depth: u64, a: &Lent<T>, b: &Lent<T>, cuts: &[u64]) {
    if lacks_block(a.width, a.height) {
        let kept = come(desk, r, depth, [a, b], cuts, &[]);
        desk.tally.due(kept.carry[ROWS] == 0 && read::end(&kept.carry) == Err(19));
        return end_of(desk, &kept.carry);
    }
    let (measures, costs) = whole(desk, depth, a, b);
    let kept = come(desk, r, depth, [a, b], cuts, &costs);
    if read::end(&kept.carry) != Ok(measures) {
        desk.tally.differs("two planes in strips");
    }
    end_known(desk, &kept.carry, Ok(measures));
    desk.tally.strip_films += 1;
    desk.tally.strips += cuts.len() as u64;
}

/// The sides of frames. One in six has many rows of blocks.
pub fn sides(r: &mut Random) -> (u64, u64) {
    let (width, height) = plane_cases::sides(r);
    (width, if r.once_in(6) { r.from_to(56, 200) } else { height })
}

pub fn film<T: Sample>(desk: &mut Desk, r: &mut Random, (width, height): (u64, u64)) {
    let depth = T::depth(r);
    let (a, mut b) = (lent::<T>(r, depth, width, height), lent::<T>(r, depth, width, height));
    if r.once_in(4) {
        (b.samples, b.stride, b.origin) = (a.samples.clone(), a.stride, a.origin);
        differ(r, depth, &mut b.samples);
    }
    let cuts = cuts(r, height);
    film_of(desk, r, depth, &a, &b, &cuts);
}
