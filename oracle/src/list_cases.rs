//! Transforms, the SATD, thresholds of any list, and the scale rule.
use scenes::SceneDetectionSpeed;
use v_frame::plane::{Plane, PlaneGeometry};

use crate::attempt::ran;
use crate::desk::Desk;
use crate::measures_reading as read;
use crate::plane_cases::put_threshold;
use crate::random::Random;
use crate::reading;
use crate::sample::{Sample, most};
use crate::stream::Kind;
use crate::tally::Ran;

type Scenes = scenes::SceneChangeDetector<u8>;

/// A transform in place, of 4 × 4 or 8 × 8.
pub fn hadamard(desk: &mut Desk, r: &mut Random, side: usize) {
    let edge = 65_535i64;
    let taste = r.below(5);
    let mut entry = |_| match taste {
        0 => r.below(131_071) as i64 - edge,
        1 => r.of(&[edge, -edge]),
        2 => r.below(511) as i64 - 255,
        3 => r.of(&[0, 0, 0, 0, 0, 1, -1]),
        _ => edge,
    };
    let mut list: Vec<i32> = (0..side * side).map(|i| entry(i) as i32).collect();
    if r.once_in(12) {
        let at = r.below(list.len() as u64) as usize;
        list[at] = r.of(&[65_536, -65_536, i32::MIN, i32::MAX, i32::MIN + 65_535]);
    }
    if r.once_in(20) {
        list.resize(r.of(&[0, 15, 16, 17, 63, 64, 65]), 1);
    }
    hadamard_of(desk, &list, side);
}

pub fn hadamard_of(desk: &mut Desk, list: &[i32], side: usize) {
    let fault = read::hadamard_fault(list, side);
    let mut after = list.to_vec();
    if fault == 0 {
        Scenes::door_hadamard(&mut after);
        let mut ours = list.to_vec();
        read::hadamard(&mut ours, side);
        if after != ours {
            desk.tally.differs("a transform");
        }
        desk.tally.measures += 1;
    } else {
        desk.tally.refusal(fault, runs(list, side));
    }
    let words = |l: &[i32]| -> Vec<u32> { l.iter().map(|&x| x as u32).collect() };
    desk.out.word(side as u64).halves(&words(list)).answer(-i64::from(fault)).halves(&words(&after));
    desk.out.end(Kind::Hadamard);
}

/// Whether the crate stops on entries out of range: a sum that overflows stops it where that is checked.
fn runs(list: &[i32], side: usize) -> Ran {
    if list.len() != side * side {
        return Ran::NotAsked;
    }
    let mut list = list.to_vec();
    ran(|| Scenes::door_hadamard(&mut list))
}

/// The bits of the samples of a SATD: any that two bytes hold may be there.
pub fn satd_bits<T: Sample>(r: &mut Random) -> u64 {
    if T::IS_DEEP { r.of(&[10, 12, 16, 16]) } else { 8 }
}

pub fn satd<T: Sample>(desk: &mut Desk, r: &mut Random) {
    let most = most(satd_bits::<T>(r));
    let middle = most / 2 + 1;
    let taste = r.below(4);
    let base = r.below(most + 1);
    let mut sample = |_| match taste {
        0 => r.word() & most,
        1 => r.of(&[0, most]),
        2 => (base + r.below(3)).min(most),
        _ => r.of(&[middle, middle, middle, middle + 1]),
    };
    let mut lists: Vec<Vec<T>> = (0..2).map(|_| (0..64).map(&mut sample).map(T::of).collect()).collect();
    if r.once_in(8) {
        lists[1] = vec![T::of(r.of(&[0, middle, most])); 64];
    }
    if r.once_in(20) {
        let which = r.below(2) as usize;
        lists[which].resize(r.of(&[0, 16, 63, 65, 128]), T::of(0));
    }
    satd_of(desk, &lists[0], &lists[1]);
}

pub fn satd_of<T: Sample>(desk: &mut Desk, a: &[T], b: &[T]) {
    let mut due = read::satd(a, b);
    if due < 0 {
        desk.tally.refusal(2, Ran::NotAsked);
    } else {
        let shape = PlaneGeometry { width: 8, height: 8, stride: 8, origin: 0 };
        let block = |l: &[T]| Plane::over(l.to_vec(), shape);
        let theirs = i64::from(scenes::SceneChangeDetector::<T>::door_satd(&block(a), &block(b)));
        if theirs != due {
            desk.tally.differs("a SATD");
        }
        due = theirs;
        desk.tally.measures += 1;
    }
    T::put(desk.out, a);
    T::put(desk.out, b);
    desk.out.answer(due).end(T::KINDS.satd);
}

/// The threshold of any list of costs, which no film need have: by the reading alone.
pub fn threshold(desk: &mut Desk, r: &mut Random) {
    let most = r.of(&[4, 1 << 10, 1 << 32]);
    let costs: Vec<u32> = (0..r.below(40)).map(|_| r.below(most) as u32).collect();
    let have = costs.len() as u64;
    let count = if r.once_in(10) { have + r.of(&[1, 7, 1 << 32, 1 << 60]) } else { r.below(have + 1) };
    threshold_of(desk, &costs, count);
}

pub fn threshold_of(desk: &mut Desk, costs: &[u32], count: u64) {
    let due = read::threshold(costs, count);
    desk.tally.read_measures += u64::from(due.is_ok());
    put_threshold(desk, costs, count, due);
}

pub fn scale(desk: &mut Desk, r: &mut Random) {
    let edges = [240, 241, 480, 481, 720, 721, 1080, 1081, 1600, 1601, 1, 8192];
    let side = |r: &mut Random| match r.below(6) {
        0..=2 => r.of(&edges),
        3 => r.of(&[0, 8193, u64::MAX, 1 << 32]),
        _ => r.from_to(1, 8192),
    };
    let mode = if r.once_in(8) { r.of(&[3, u64::from(u32::MAX)]) } else { r.of(&[0, 1, 1, 1, 2]) };
    let (width, height) = (side(r), side(r));
    scale_of(desk, width, height, mode);
}

pub fn scale_of(desk: &mut Desk, width: u64, height: u64, mode: u64) {
    let speed = match mode {
        0 => SceneDetectionSpeed::None,
        1 => SceneDetectionSpeed::Fast,
        _ => SceneDetectionSpeed::Standard,
    };
    let mut due = reading::scale_factor(width, height, mode);
    if due < 0 {
        let known = mode <= reading::STANDARD;
        let asked = || ran(|| Scenes::door_scale(width as usize, height as usize, speed));
        desk.tally.refusal(6, if known { asked() } else { Ran::NotAsked });
    } else {
        let theirs = Scenes::door_scale(width as usize, height as usize, speed) as i64;
        if theirs != due {
            desk.tally.differs("a scale factor");
        }
        due = theirs;
        desk.tally.measures += 1;
    }
    desk.out.word(width).word(height).word(mode).answer(due).end(Kind::Scale);
}
