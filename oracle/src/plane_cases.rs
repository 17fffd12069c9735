//! Planes of every size around multiples of 8, of either word, with strides and origins, and the measures over them.
use std::sync::Arc;

use scenes::_bench_internals::{estimate_importance_block_difference, estimate_intra_costs};
use v_frame::{
    frame::{Fed, Frame},
    plane::{Plane, PlaneGeometry},
};

use crate::attempt::ran;
use crate::deep_cases;
use crate::desk::Desk;
use crate::measures_reading::{self as read, Lent};
use crate::random::Random;
use crate::sample::{Sample, most};
use crate::stream::{Kind, Stream};
use crate::tally::Ran;
use crate::values::same;

type Scenes<T> = scenes::SceneChangeDetector<T>;

fn side(r: &mut Random) -> u64 {
    match r.below(12) {
        0..=7 => r.from_to(1, 26),
        8..=10 => r.from_to(1, 9) * 8 - 1 + r.below(3),
        _ => r.from_to(1, 200),
    }
}

/// Every second time a side below 8 is raised, so that there is a block.
pub fn or_raised(r: &mut Random, sides: (u64, u64)) -> (u64, u64) {
    let raised = |side: u64| if side < 8 { side + 8 } else { side };
    if r.once_in(2) { (raised(sides.0), raised(sides.1)) } else { sides }
}

/// One time in six there is no block.
pub fn sides(r: &mut Random) -> (u64, u64) {
    let sides = (side(r), side(r));
    or_raised(r, sides)
}

/// The value of each sample of a picture, by one of several tastes.
pub fn picture<T: Sample>(r: &mut Random, depth: u64, size: usize) -> Vec<T> {
    let most = most(depth);
    let (taste, base, near) = (r.below(6), r.below(most + 1), r.from_to(28, 36));
    let sample = |_| match taste {
        0 => r.word() & most,
        1 => base,
        2 => r.of(&[0, most]),
        3 => (base + r.below(4)).min(most),
        // About half of the samples one above the rest: block sums on both sides of the rounding.
        4 => (base + u64::from(r.below(64) < near)).min(most),
        _ => r.of(&[0, 0, 0, 1]),
    };
    (0..size).map(sample).map(T::of).collect()
}

/// The shape of a plane with room before, between and behind its rows, and how many samples it has.
pub fn shaped<T>(r: &mut Random, width: u64, height: u64) -> (Lent<T>, usize) {
    let stride = if height == 1 && r.once_in(4) { u64::MAX } else { width + r.of(&[0, 0, 1, 3, 8, 61]) };
    let origin = r.of(&[0, 0, 1, 7, 64]);
    let end = origin + (height - 1) * stride.min(1 << 40) + width;
    let size = (end + r.of(&[0, 0, 1, 9])) as usize;
    (Lent { samples: Vec::new(), width, height, stride, origin }, size)
}

pub fn lent<T: Sample>(r: &mut Random, depth: u64, width: u64, height: u64) -> Lent<T> {
    let (mut l, size) = shaped(r, width, height);
    l.samples = picture(r, depth, size);
    deep_cases::pad(r, &mut l);
    l
}

pub fn plane<T: Sample>(l: &Lent<T>) -> Plane<T> {
    let [width, height, stride, origin] = [l.width, l.height, l.stride, l.origin].map(|n| n as usize);
    Plane::over(l.samples.clone(), PlaneGeometry { width, height, stride, origin })
}

pub fn frame<T: Sample>(l: &Lent<T>, depth: u64) -> Arc<Frame<T>> {
    Arc::new(Frame::deep(plane(l), depth as u8, Fed::default()))
}

pub fn hurt_one<T>(r: &mut Random, a: &mut Lent<T>, b: &mut Lent<T>) {
    let first = r.once_in(2);
    hurt(r, if first { a } else { b });
}

/// One wrong number in a plane.
fn hurt<T>(r: &mut Random, l: &mut Lent<T>) {
    match r.below(9) {
        0 => l.width = r.of(&[0, 8193, u64::MAX]),
        1 => l.height = r.of(&[0, 8193, u64::MAX]),
        2 => l.stride = r.of(&[l.width.wrapping_sub(1), 0, 1 << 63, u64::MAX, l.stride.saturating_add(1), 1 << 32]),
        3 => l.origin = r.of(&[l.origin.wrapping_add(1), u64::MAX, 1 << 63, 1 << 32, 0u64.wrapping_sub(l.width)]),
        4 | 5 => drop(l.samples.pop()),
        6 => l.samples.truncate(l.width as usize / 2),
        7 => l.height = r.of(&[l.height.wrapping_add(1), 8192, l.height.max(2) - 1]),
        _ => l.width = r.of(&[l.width.wrapping_add(1), 8192, l.width.max(2) - 1]),
    }
}

/// The depth of a case, or one time in sixty another.
pub fn or_odd<T: Sample>(r: &mut Random, depth: u64) -> u64 {
    if r.once_in(60) { r.of(T::ODD) } else { depth }
}

pub fn put<T: Sample>(out: &mut Stream, l: &Lent<T>) {
    out.word(l.width).word(l.height).word(l.stride).word(l.origin);
    T::put(out, &l.samples);
}

/// Plane difference, importance total, delta and importance of two planes.
pub fn pair<T: Sample>(desk: &mut Desk, r: &mut Random) {
    let depth = T::depth(r);
    let (width, height) = sides(r);
    let (mut a, mut b) = (lent(r, depth, width, height), lent(r, depth, width, height));
    if r.once_in(4) {
        b.samples = a.samples.clone();
        (b.stride, b.origin) = (a.stride, a.origin);
        differ(r, depth, &mut b.samples);
    }
    deep_cases::exceed_one(r, depth, &mut a, &mut b);
    while r.once_in(4) {
        hurt_one(r, &mut a, &mut b);
    }
    let depth = or_odd::<T>(r, depth);
    pair_of::<T>(desk, depth, &a, &b);
}

/// Another sample in one place.
pub fn differ<T: Sample>(r: &mut Random, depth: u64, samples: &mut [T]) {
    let at = r.below(samples.len() as u64) as usize;
    samples[at] = T::of(samples[at].number() ^ 1 << r.below(depth));
}

/// Without a block planes have a difference and a delta, but no importance.
pub fn pair_of<T: Sample>(desk: &mut Desk, depth: u64, a: &Lent<T>, b: &Lent<T>) {
    let (plain, by_blocks) = (read::difference_fault(depth, a, b), read::importance_fault(depth, a, b));
    let mut answers = [plain, by_blocks, plain, by_blocks].map(|fault| -i64::from(fault));
    let mut reals = [0.0; 2];
    if plain == 0 {
        let (difference, delta) = crate_difference(desk, depth, a, b);
        (answers[0], reals[0]) = (difference as i64, delta);
        desk.tally.measures += 1;
    } else {
        desk.tally.refusal(plain, stops(plain, depth, a, b));
    }
    if by_blocks == 0 {
        let (total, importance) = crate_importance(desk, depth, a, b);
        (answers[1], reals[1]) = (total as i64, importance);
        desk.tally.measures += 2;
    } else if by_blocks != plain {
        desk.tally.refusal(by_blocks, stops(by_blocks, depth, a, b));
    }
    desk.out.word(depth);
    put(desk.out, a);
    put(desk.out, b);
    desk.out.words(&answers.map(|x| x as u64)).real(reals[0]).real(reals[1]).end(T::KINDS.planes);
}

/// Whether the crate stops on two planes of different sizes, or without a block.
fn stops<T: Sample>(fault: u32, depth: u64, a: &Lent<T>, b: &Lent<T>) -> Ran {
    match fault {
        3 => ran(|| Scenes::<T>::door_difference(&plane(a), &plane(b))),
        19 => ran(|| estimate_importance_block_difference(&frame(b, depth), &frame(a, depth))),
        _ => Ran::NotAsked,
    }
}

/// Delta comes from a Fast detector of the planes' own size, as long as it does not reduce them.
fn crate_difference<T: Sample>(desk: &mut Desk, depth: u64, a: &Lent<T>, b: &Lent<T>) -> (u64, f64) {
    let (first, second) = (frame(a, depth), frame(b, depth));
    let difference = Scenes::<T>::door_difference(&first.y_plane, &second.y_plane);
    let mut delta = read::quotient(read::difference(a, b), a.width * a.height);
    if difference != read::difference(a, b) {
        desk.tally.differs("a plane difference");
    }
    if a.width.min(a.height) <= 240 {
        let settings = [a.width, a.height, depth, 5, 1, 0, 0];
        let theirs = crate::films::detector::<T>(&settings).door_fast(&first, &second).inter_cost;
        if !same(theirs, delta) {
            desk.tally.differs("a delta");
        }
        delta = theirs;
        desk.tally.measures += 1;
    } else {
        desk.tally.read_measures += 1;
    }
    (difference, delta)
}

/// The crate gives the quotient alone; the total is the whole number that has it.
pub fn crate_importance<T: Sample>(desk: &mut Desk, depth: u64, a: &Lent<T>, b: &Lent<T>) -> (u64, f64) {
    let importance = estimate_importance_block_difference(&frame(b, depth), &frame(a, depth));
    let total = (importance * a.blocks() as f64).round() as u64;
    if !same(read::quotient(total, a.blocks()), importance) || total != read::importance_total(a, b) {
        desk.tally.differs("an importance");
    }
    (total, importance)
}

/// Intra costs of a plane over a work plane, and the threshold from them.
pub fn intra<T: Sample>(desk: &mut Desk, r: &mut Random) {
    let depth = T::depth(r);
    let (width, height) = sides(r);
    let (mut a, mut work) = (lent(r, depth, width, height), lent(r, depth, width, height));
    deep_cases::exceed_first(r, depth, &mut a, &mut work);
    while r.once_in(8) {
        hurt_one(r, &mut a, &mut work);
    }
    let blocks = (width / 8) * (height / 8);
    let room = if r.once_in(12) { r.below(blocks + 1) } else { blocks + r.below(3) };
    let costs: Vec<u32> = (0..room).map(|_| r.word() as u32).collect();
    let depth = or_odd::<T>(r, depth);
    intra_of::<T>(desk, depth, &a, &work, &costs);
}

/// A depth above the sample's bits does not fit it: there the crate's text is undefined, and it cannot be asked. Only a mutant of
/// the reading wants to.
pub fn within<T>(depth: u64) -> u64 {
    depth.min(8 * size_of::<T>() as u64)
}

pub fn intra_of<T: Sample>(desk: &mut Desk, depth: u64, a: &Lent<T>, work: &Lent<T>, room: &[u32]) {
    let fault = read::intra_fault(depth, a, work, room.len());
    let (mut answer, mut after, mut costs) = (-i64::from(fault), work.samples.clone(), room.to_vec());
    if fault == 0 {
        let mut temp = plane(work);
        let theirs = estimate_intra_costs(&mut temp, &frame(a, depth), within::<T>(depth) as usize);
        if (theirs.to_vec(), temp.samples.clone()) != read::intra(depth, a, work) {
            desk.tally.differs("intra costs or their work plane");
        }
        answer = theirs.len() as i64;
        after = temp.samples;
        costs[..theirs.len()].copy_from_slice(&theirs);
        desk.tally.measures += 1;
        crate_threshold(desk, within::<T>(depth), a, &theirs);
    } else {
        let sound = T::DEPTHS.iter().any(|&other| read::intra_fault(other, a, work, room.len()) == 0);
        let known = fault == 19 || (fault == 5 && within::<T>(depth) == depth && sound);
        let asked = || ran(|| estimate_intra_costs(&mut plane(work), &frame(a, 8), within::<T>(depth) as usize));
        desk.tally.refusal(fault, if known { asked() } else { Ran::NotAsked });
    }
    desk.out.word(depth);
    put(desk.out, a);
    put(desk.out, work);
    desk.out.halves(room).answer(answer);
    T::put(desk.out, &after);
    desk.out.halves(&costs).end(T::KINDS.intra);
}

/// The threshold of a score over a frame, beside that of its costs.
fn crate_threshold<T: Sample>(desk: &mut Desk, depth: u64, a: &Lent<T>, costs: &[u32]) {
    let second = frame(a, depth);
    let mut detector = crate::films::detector::<T>(&[a.width, a.height, depth, 5, 2, 0, 0]);
    let theirs = detector.door_standard(&second, &second).threshold;
    if !read::threshold(costs, costs.len() as u64).is_ok_and(|t| same(t, theirs)) {
        desk.tally.differs("a threshold");
    }
    desk.tally.measures += 1;
    put_threshold(desk, costs, costs.len() as u64, Ok(theirs));
}

pub fn put_threshold(desk: &mut Desk, costs: &[u32], count: u64, due: Result<f64, u32>) {
    if let Err(fault) = due {
        desk.tally.refusal(fault, Ran::NotAsked);
    }
    let answer = due.map_or_else(|fault| -i64::from(fault), |_| 0);
    desk.out.halves(costs).word(count).answer(answer).real(due.unwrap_or(0.0)).end(Kind::Threshold);
}
