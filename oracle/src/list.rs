//! What stands in the fixed list: the values at the edges, then measures and calls from a seed. Planes are small.
use crate::damage;
use crate::desk::{Desk, LENGTHS, put_state};
use crate::deep_cases;
use crate::detector_cases::{self, Depths};
use crate::edges;
use crate::list_cases;
use crate::log_cases;
use crate::log_edges;
use crate::measures_reading::Lent;
use crate::pair_cases;
use crate::plane_cases::{differ, hurt_one, intra_of, or_odd, or_raised, pair_of, shaped};
use crate::random::Random;
use crate::reading::{self, STANDARD};
use crate::reduce_cases;
use crate::sample::{Sample, most};
use crate::sizes::{COUNT, LAST, LENGTH, NUMBERS, OFFSET, ROOM, SCORES};
use crate::state::{Call, State};
use crate::strips_calls;
use crate::strips_cases;
use crate::strips_edges;

/// How often each measure is drawn; some are refused. How many calls are drawn that the crate answers.
const MEASURES: u64 = 150;
const CALLS: u64 = 2_000;
/// How often a log is drawn, and the most records that it has.
const LOGS: u64 = 40;
const LOG_MOST: u64 = 12;
/// How many recorders append to a log of their own.
const RECORDERS: u64 = 5;
/// How many reductions are drawn.
const REDUCTIONS: u64 = 25;
/// The same of 16 bits.
const DEEP_MEASURES: u64 = 75;
const DEEP_CALLS: u64 = 600;
/// How many films come in strips, and how many single calls of strips are drawn, of either word.
const STRIP_FILMS: u64 = 20;
const STRIP_CALLS: u64 = 40;

fn sides(r: &mut Random) -> (u64, u64) {
    if r.once_in(2) {
        return (r.from_to(1, 26), r.from_to(1, 20));
    }
    (r.of(&[8, 9, 15, 16, 17, 23, 24, 25, 26]), r.of(&[8, 9, 15, 16, 17, 20]))
}

/// All samples, one, the first and the last, a few near each other, two that differ by 1.
fn samples<T: Sample>(r: &mut Random, bits: u64, len: usize) -> Vec<T> {
    let most = most(bits);
    let base = r.below(most + 1);
    let (low, span) = r.of(&[(0, most + 1), (base, 1), (most, 2), (base, 4), (base, 2), (0, 2)]);
    (0..len).map(|_| T::of((low + r.below(span)) & most)).collect()
}

fn plane<T: Sample>(r: &mut Random, depth: u64, width: u64, height: u64) -> Lent<T> {
    let (mut l, len) = shaped(r, width, height);
    l.samples = samples(r, depth, len);
    l
}

fn planes<T: Sample>(r: &mut Random, depth: u64) -> (Lent<T>, Lent<T>) {
    let (width, height) = sides(r);
    (plane(r, depth, width, height), plane(r, depth, width, height))
}

fn pair<T: Sample>(desk: &mut Desk, r: &mut Random) {
    let depth = T::depth(r);
    let (mut a, mut b) = planes(r, depth);
    if r.once_in(5) {
        // Two planes that differ in one sample.
        b = a.clone();
        differ(r, depth, &mut b.samples);
    }
    deep_cases::exceed_one(r, depth, &mut a, &mut b);
    while r.once_in(4) {
        hurt_one(r, &mut a, &mut b);
    }
    let depth = or_odd::<T>(r, depth);
    pair_of::<T>(desk, depth, &a, &b);
}

fn intra<T: Sample>(desk: &mut Desk, r: &mut Random) {
    let depth = T::depth(r);
    let (mut a, mut work) = planes(r, depth);
    let blocks = a.blocks();
    deep_cases::exceed_first(r, depth, &mut a, &mut work);
    while r.once_in(6) {
        hurt_one(r, &mut a, &mut work);
    }
    let room = if r.once_in(12) { r.below(blocks + 1) } else { blocks + r.below(3) };
    let costs = vec![r.word() as u32; room as usize];
    let depth = or_odd::<T>(r, depth);
    intra_of::<T>(desk, depth, &a, &work, &costs);
}

fn satd<T: Sample>(desk: &mut Desk, r: &mut Random) {
    let bits = list_cases::satd_bits::<T>(r);
    let flat = |r: &mut Random| vec![T::of(r.of(&[0, most(bits) / 2 + 1, most(bits)])); 64];
    let mut lists = [samples(r, bits, 64), if r.once_in(4) { flat(r) } else { samples(r, bits, 64) }];
    if r.once_in(15) {
        let which = r.below(2) as usize;
        lists[which].resize(r.of(&[0, 16, 63, 65, 128]), T::of(0));
    }
    list_cases::satd_of(desk, &lists[0], &lists[1]);
}

fn hadamard(desk: &mut Desk, r: &mut Random, side: usize) {
    let edge = 65_535;
    let (low, span) = r.of(&[(-edge, 131_071), (-edge, 1), (edge, 1), (-255, 511), (-1, 3)]);
    let mut list: Vec<i32> = (0..side * side).map(|_| low + r.below(span) as i32).collect();
    if r.once_in(5) {
        list.iter_mut().for_each(|x| *x = r.of(&[edge, -edge]));
    }
    if r.once_in(12) {
        let at = r.below(list.len() as u64) as usize;
        list[at] = r.of(&[65_536, -65_536, i32::MAX, -i32::MAX]);
    }
    if r.once_in(15) {
        list.resize(r.of(&[0, 15, 16, 17, 63, 64, 65]), 1);
    }
    list_cases::hadamard_of(desk, &list, side);
}

/// A state of a Standard detector, its pair numbers in order, and a call that it accepts.
fn standard(lookahead: u64, last: u64, length: u64, count: u64) -> (State, Call) {
    let blank = State { numbers: [0; NUMBERS], places: [1.0; SCORES] };
    let mut s = reading::fresh(&[64, 64, 8, lookahead, STANDARD, 0, 1000], &blank);
    (s.numbers[OFFSET], s.numbers[LAST], s.numbers[LENGTH], s.numbers[COUNT]) = (0, last, length, count);
    pair_cases::fall(&mut s, last, &[]);
    let one = || vec![1.0];
    let c = Call { set: 2, frame: last + 1, previous: 0, inter: one(), importance: one(), threshold: one() };
    (s, c)
}

/// The reading is asked all the same, so that a mutant of it makes a list, which is wrong here.
fn refused(desk: &mut Desk, (s, c): (State, Call), due: u32) {
    let fault = reading::step_fault(LENGTHS, &s, &c);
    desk.tally.due(fault == due);
    put_state(desk, &s);
    damage::refused(desk, LENGTHS, &s, &c, fault);
}

/// States for which 11 is due: as many entries as there is room for are too many, also without lookahead; with none the
/// offset is A.
fn refused_states(desk: &mut Desk) {
    for (lookahead, count) in [(0, ROOM), (5, 0)] {
        refused(desk, standard(lookahead, 40, 2, count as u64), 11);
    }
}

/// Calls with two faults, of which the first is due, in the order 11, 7, 8, 9, 10.
fn orders_of_steps(desk: &mut Desk) {
    let changed = |mut call: (State, Call), change: fn(&mut Call)| {
        change(&mut call.1);
        call
    };
    refused(desk, changed(standard(0, 40, 2, ROOM as u64), |c| c.frame = 0), 11);
    refused(desk, changed(standard(0, 4, 2, 0), |c| (c.frame, c.set) = (0, u64::MAX)), 7);
    // One frame after an accepted set of none.
    let alone = |c: &mut Call| *c = Call { set: 1, inter: vec![], importance: vec![], threshold: vec![], ..*c };
    refused(desk, changed(standard(0, 4, 0, 0), alone), 8);
    refused(desk, changed(standard(0, 4, 2, 0), |c| c.set = 1), 9);
}

/// The same of planes: 5, then 1 and 2 of the first, 1 and 2 of the second, 3, 4; and of lists: 2, 10. 19 is in block_edges.rs.
fn orders_of_measures(desk: &mut Desk) {
    let plane = |width: u64, samples: usize| Lent { samples: vec![3u8; samples], width, height: 8, stride: 9, origin: 0 };
    let sound = plane(8, 72);
    for (depth, a, b, costs, due) in [
        (9, plane(0, 72), sound.clone(), 1, 5),
        (8, plane(8, 70), plane(0, 72), 1, 2),
        (8, plane(0, 72), plane(8, 70), 1, 1),
        (8, sound.clone(), plane(9, 71), 1, 2),
        (8, sound.clone(), plane(9, 72), 0, 3),
    ] {
        edges::both(desk, depth, &a, &b, costs, [due; 3]);
    }
    list_cases::hadamard_of(desk, &[65_536; 15], 4);
}

pub fn all(desk: &mut Desk, r: &mut Random) {
    edges::all(desk);
    refused_states(desk);
    orders_of_steps(desk);
    orders_of_measures(desk);
    for _ in 0..MEASURES {
        list_cases::scale(desk, r);
        pair::<u8>(desk, r);
        intra::<u8>(desk, r);
        list_cases::threshold(desk, r);
        hadamard(desk, r, 4);
        hadamard(desk, r, 8);
        satd::<u8>(desk, r);
    }
    let due = desk.tally.calls + CALLS;
    while desk.tally.calls < due {
        detector_cases::run(desk, r, Depths::Byte);
    }
    logs(desk, r);
    reductions::<u8>(desk, r, REDUCTIONS);
    deep(desk, r);
    strips::<u8>(desk, r);
    strips::<u16>(desk, r);
}

/// The logs come behind the detector: the lines above are the same with them and without.
fn logs(desk: &mut Desk, r: &mut Random) {
    log_edges::all(desk);
    for _ in 0..LOGS {
        log_cases::read(desk, r, LOG_MOST);
        log_cases::append(desk, r, LOG_MOST);
    }
    for _ in 0..RECORDERS {
        log_cases::recorder(desk, r);
    }
}

/// The reductions come behind them, for the same reason. Those that are drawn have two to four squares a side.
fn reductions<T: Sample>(desk: &mut Desk, r: &mut Random, count: u64) {
    for &depth in T::DEPTHS {
        reduce_cases::edges::<T>(desk, depth);
        reduce_cases::orders::<T>(desk, depth);
    }
    for _ in 0..count {
        let depth = T::depth(r);
        let factor = r.of(&[1, 2, 2, 4, 4, 8]);
        let sides = [0; 2].map(|_| r.from_to(2, if factor == 8 { 2 } else { 4 }));
        let [width, height] = sides.map(|n| n * factor + r.below(factor));
        let (mut a, mut reduced) = (plane(r, depth, width, height), plane(r, depth, sides[0], sides[1]));
        deep_cases::exceed_first(r, depth, &mut a, &mut reduced);
        if r.once_in(4) {
            hurt_one(r, &mut a, &mut reduced);
        }
        let depth = or_odd::<T>(r, depth);
        reduce_cases::reduce_of::<T>(desk, depth, factor, &a, &reduced);
    }
}

/// Samples of 16 bits, and detectors of 10 and 12, come behind them.
fn deep(desk: &mut Desk, r: &mut Random) {
    deep_cases::edges(desk);
    edges::thresholds(desk);
    for &depth in u16::DEPTHS {
        edges::measures::<u16>(desk, depth);
    }
    for _ in 0..DEEP_MEASURES {
        pair::<u16>(desk, r);
        intra::<u16>(desk, r);
        satd::<u16>(desk, r);
    }
    let due = desk.tally.calls + DEEP_CALLS;
    while desk.tally.calls < due {
        detector_cases::run(desk, r, Depths::Deep);
    }
    reductions::<u16>(desk, r, REDUCTIONS);
}

/// The sides of frames that come in strips. One time in six there is no block.
fn strip_sides(r: &mut Random) -> (u64, u64) {
    let sides = (r.from_to(5, 18), r.from_to(6, 20));
    or_raised(r, sides)
}

/// Strips come last.
fn strips<T: Sample>(desk: &mut Desk, r: &mut Random) {
    strips_edges::all::<T>(desk, r);
    for _ in 0..STRIP_FILMS {
        let sides = strip_sides(r);
        strips_cases::film::<T>(desk, r, sides);
    }
    for _ in 0..STRIP_CALLS {
        let sides = strip_sides(r);
        strips_calls::start(desk, r);
        strips_calls::add::<T>(desk, r, sides);
        strips_calls::end(desk, r, sides);
    }
}
