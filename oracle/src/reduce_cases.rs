//! Planes that are reduced by a factor into a lent plane. The text of the crate's reduction is missing: the answers are those
//! of what stands in its place, plain Rust of the shims. With a factor of 1 they are the reading's alone.
use crate::attempt::attempt;
use crate::deep_cases;
use crate::desk::Desk;
use crate::edges::flat;
use crate::measures_reading::{self as read, Lent};
use crate::plane_cases::{hurt_one, lent, or_odd, plane, put};
use crate::random::Random;
use crate::sample::{Sample, most};
use crate::tally::Ran;

type Scenes<T> = scenes::SceneChangeDetector<T>;

const FACTORS: [u64; 6] = [1, 2, 4, 8, 16, 32];
/// Numbers that are none of the six, some of them by their high bits alone.
const OTHERS: [u64; 12] = [0, 3, 5, 6, 12, 31, 33, 64, 256 + 2, (1 << 32) + 4, 1 << 63, u64::MAX];
/// The library goes through a row in chunks of so many samples.
const CHUNK: u64 = 128;

/// A side of so many whole squares, and a part of one more.
fn side(r: &mut Random, factor: u64, squares: u64) -> u64 {
    squares * factor + if r.once_in(3) { 0 } else { r.below(factor) }
}

/// Few squares, or about as many as one chunk or two have, or any number of them.
fn width(r: &mut Random, factor: u64) -> u64 {
    let squares = match r.below(8) {
        0..=3 => r.from_to(1, (80 / factor).max(2)),
        4..=6 => r.from_to(1, 2) * CHUNK / factor - 1 + r.below(3),
        _ => r.from_to(1, 320 / factor),
    };
    side(r, factor, squares)
}

fn height(r: &mut Random, factor: u64) -> u64 {
    let squares = r.from_to(1, (16 / factor).max(2));
    side(r, factor, squares)
}

/// The sides of the lent plane: the reduced ones, or one of them is off by one.
fn reduced_sides(r: &mut Random, sides: [u64; 2], factor: u64) -> [u64; 2] {
    let mut reduced = sides.map(|n| (n / factor).max(1));
    if r.once_in(12) {
        let which = &mut reduced[r.below(2) as usize];
        *which = if r.once_in(2) { *which + 1 } else { (*which).max(2) - 1 };
    }
    reduced
}

pub fn reduce<T: Sample>(desk: &mut Desk, r: &mut Random) {
    let depth = T::depth(r);
    let mut factor = r.of(&FACTORS);
    let mut sides = [width(r, factor), height(r, factor)];
    if factor > 1 && r.once_in(16) {
        sides[r.below(2) as usize] = r.from_to(1, factor - 1);
    }
    let [wide, high] = reduced_sides(r, sides, factor);
    let (mut a, mut reduced) = (lent(r, depth, sides[0], sides[1]), lent(r, depth, wide, high));
    deep_cases::exceed_first(r, depth, &mut a, &mut reduced);
    while r.once_in(8) {
        hurt_one(r, &mut a, &mut reduced);
    }
    let mut depth = or_odd::<T>(r, depth);
    if r.once_in(24) {
        factor = r.of(&OTHERS);
        depth = r.of(&[depth, depth, 9]);
    }
    reduce_of::<T>(desk, depth, factor, &a, &reduced);
}

pub fn reduce_of<T: Sample>(desk: &mut Desk, depth: u64, factor: u64, a: &Lent<T>, reduced: &Lent<T>) {
    let fault = read::reduce_fault(depth, factor, a, reduced);
    let mut after = reduced.samples.clone();
    if fault == 0 {
        after = shown(desk, factor, a, reduced, read::reduce(factor, a, reduced));
    } else {
        desk.tally.refusal(fault, Ran::NotAsked);
    }
    desk.out.word(depth).word(factor);
    put(desk.out, a);
    put(desk.out, reduced);
    desk.out.answer(-i64::from(fault));
    T::put(desk.out, &after);
    desk.out.end(T::KINDS.reduce);
}

/// What the shims make of the lent plane, beside what the reading makes of it. They stop where a mutant of the reading lets
/// in a lent plane that is too large.
fn shown<T: Sample>(desk: &mut Desk, factor: u64, a: &Lent<T>, reduced: &Lent<T>, ours: Vec<T>) -> Vec<T> {
    if factor == 1 {
        desk.tally.read_measures += 1;
        return ours;
    }
    let (from, mut to) = (plane(a), plane(reduced));
    let theirs = attempt(|| Scenes::<T>::door_reduce(&from, factor as usize, &mut to)).map(|()| to.samples);
    if theirs.as_ref() != Some(&ours) {
        desk.tally.differs("a reduction");
    }
    desk.tally.reductions += 1;
    theirs.unwrap_or(ours)
}

/// Squares side by side, of 0 with samples of 1: half of them in every second one, and one fewer in the others. Behind them and
/// below are samples that belong to no whole square, where there can be any.
fn squares<T: Sample>(depth: u64, factor: u64, count: u64) -> Lent<T> {
    let mut l = flat(count * factor + factor - 1, factor + u64::from(factor > 1), most(depth));
    for x in 0..count {
        let ones = (factor * factor / 2 + x % 2).saturating_sub(1);
        for i in 0..factor * factor {
            l.samples[(i / factor * l.width + x * factor + i % factor) as usize] = T::of(u64::from(i < ones));
        }
    }
    l
}

/// At each factor both sides of the rounding and the largest sum: of few squares, and of one more than a chunk has.
pub fn edges<T: Sample>(desk: &mut Desk, depth: u64) {
    for factor in FACTORS {
        for count in [2, CHUNK / factor + 1] {
            let place = Lent { samples: vec![T::of(9); count as usize + 4], origin: 2, ..flat(count, 1, 0) };
            reduce_of(desk, depth, factor, &squares(depth, factor, count), &place);
            reduce_of(desk, depth, factor, &flat(count * factor, factor, most(depth)), &place);
        }
    }
}

/// The longest rows.
pub fn large<T: Sample>(desk: &mut Desk, r: &mut Random, depth: u64) {
    for factor in FACTORS {
        let (a, reduced) = (lent(r, depth, 8192, factor + 1), lent(r, depth, 8192 / factor, (factor + 1) / factor));
        reduce_of::<T>(desk, depth, factor, &a, &reduced);
    }
}

/// Calls to which two refusals apply, of which the first is due: 6, 5, 1 and 2 of the plane, 1 and 2 of the lent one, 3. A
/// side below the factor is 1, whatever the lent sides are. Behind them lent sides that are larger.
pub fn orders<T: Sample>(desk: &mut Desk, depth: u64) {
    let (sound, place) = (flat::<T>(5, 4, 7), flat::<T>(2, 2, 9));
    let (short, small) = (Lent { stride: 6, ..sound.clone() }, flat(5, 1, 7));
    let lent = |width: u64, samples: usize| Lent { samples: vec![T::of(9); samples], width, ..place.clone() };
    let some = depth;
    for (depth, factor, a, reduced, due) in [
        (9, 3, &sound, place.clone(), 6),
        (9, 2, &small, place.clone(), 5),
        (some, 2, &Lent { stride: 4, samples: vec![T::of(7); 9], ..sound.clone() }, place.clone(), 1),
        (some, 2, &small, flat(2, 1, 9), 1),
        (some, 2, &Lent { samples: vec![], ..small.clone() }, flat(2, 1, 9), 1),
        (some, 2, &short, lent(0, 4), 2),
        (some, 2, &sound, lent(3, 3), 1),
        (some, 2, &sound, lent(0, 4), 1),
        (some, 2, &sound, lent(1, 2), 2),
        (some, 2, &sound, lent(1, 3), 3),
        (some, 2, &sound, flat(3, 2, 9), 3),
        (some, 2, &sound, flat(2, 3, 9), 3),
    ] {
        if read::reduce_fault(depth, factor, a, &reduced) != due {
            desk.tally.differs("another refusal of a reduction is due");
        }
        reduce_of(desk, depth, factor, a, &reduced);
    }
}
