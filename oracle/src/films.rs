//! Whole films of real planes, of either word, through the crate's own driver, `detect_scene_changes`, with nothing replaced
//! but the motion search: the inter costs are given.
use num_rational::Rational32;
use scenes::{Decoder, DetectionOptions, DetectionResults, SceneDetectionSpeed, ScenecutResult, detect_scene_changes};
use v_frame::{
    chroma::ChromaSubsampling,
    frame::{Fed, Frame},
    plane::{Plane, PlaneGeometry},
};

use crate::counted::decided_pairs;
use crate::desk::Desk;
use crate::random::Random;
use crate::sample::{Sample, most};
use crate::sizes::SET_LIMIT;

type Scenes<T> = scenes::SceneChangeDetector<T>;

fn speed(mode: u64) -> SceneDetectionSpeed {
    match mode {
        0 => SceneDetectionSpeed::None,
        1 => SceneDetectionSpeed::Fast,
        _ => SceneDetectionSpeed::Standard,
    }
}

/// The crate's detector, nothing replaced: width, height, depth, lookahead, mode, min, max.
pub fn detector<T: Sample>(n: &[u64; 7]) -> Scenes<T> {
    let [width, height, depth, ahead, _, min, max] = n.map(|x| x as usize);
    let rate = Rational32(1, 600);
    Scenes::new((width, height), depth, rate, ChromaSubsampling::Monochrome, ahead, speed(n[4]), min, max)
}

/// Scenes of some frames each, which drift a little, with a flash here and there.
fn planes<T: Sample>(r: &mut Random, depth: u64, width: usize, height: usize, frames: u64) -> Vec<Plane<T>> {
    let (most, times) = (most(depth), 1 << (depth - 8));
    let (mut base, mut spread) = (r.below(200 * times), 1 + r.below(56 * times));
    let list = (0..frames).map(|_| {
        if r.once_in(7) {
            (base, spread) = (r.below(200 * times), 1 + r.below(56 * times));
        }
        let light = if r.once_in(9) { most } else { base };
        let (stride, origin) = (width + r.of(&[0, 0, 1, 8, 61]) as usize, r.of(&[0, 0, 1, 64]) as usize);
        let size = origin + (height - 1) * stride + width + r.below(3) as usize;
        let mut samples: Vec<T> = (0..size).map(|_| T::of((light + r.below(spread)).min(most))).collect();
        // What is not visible is not looked at: of 16 bits the largest, before the first row and behind the last.
        if T::IS_DEEP {
            samples[..origin].fill(T::of(u64::MAX));
            samples[origin + (height - 1) * stride + width..].fill(T::of(u64::MAX));
        }
        Plane::over(samples, PlaneGeometry { width, height, stride, origin })
    });
    list.collect()
}

/// A film and the settings of its detector: width, height, depth, lookahead, mode, min, max.
pub struct Film<T: Sample> {
    pub settings: [u64; 7],
    pub frames: Vec<Frame<T>>,
}

impl<T: Sample> Film<T> {
    pub fn draw(r: &mut Random) -> Self {
        let depth = T::depth(r);
        let mode = r.of(&[0, 1, 1, 2, 2]);
        let large = mode == 1 && r.once_in(3);
        // Standard mode measures by blocks: there frames have one.
        let least = if mode == 2 { 8 } else { 1 };
        let (width, height) = if large { (r.of(&[242, 250]), 241) } else { (r.from_to(least, 40), r.from_to(least, 40)) };
        let count = if large { r.from_to(2, 12) } else { r.from_to(1, 60) };
        let ahead = if r.once_in(2) { r.from_to(4, 6) } else { r.from_to(1, SET_LIMIT + 1) };
        let (min, max) = (r.below(4), if r.once_in(2) { 4 + r.below(20) } else { u64::from(u32::MAX) });
        let planes = planes(r, depth, width as usize, height as usize, count);
        let feed = |r: &mut Random| Fed { inter: r.part() * r.part() * 1600.0, ..Fed::default() };
        let frames = planes.into_iter().map(|p| Frame::deep(p, depth as u8, feed(r))).collect();
        Film { settings: [width, height, depth, ahead, mode, min, max], frames }
    }

    /// What the crate's driver finds; nothing where it stops.
    pub fn found(&self) -> Option<DetectionResults> {
        let [width, height, depth, ahead, mode, min, max] = self.settings;
        let options = DetectionOptions {
            analysis_speed: speed(mode),
            detect_flashes: true,
            min_scenecut_distance: Some(min as usize),
            max_scenecut_distance: Some(max as usize),
            lookahead_distance: ahead as usize,
        };
        let mut decoder = Decoder::of(width as usize, height as usize, depth as usize, self.frames.clone());
        detect_scene_changes::<T>(&mut decoder, options, None, None).ok()
    }
}

pub fn score(e: &ScenecutResult) -> [f64; 5] {
    [e.inter_cost, e.imp_block_cost, e.backward_adjusted_cost, e.forward_adjusted_cost, e.threshold]
}

pub fn film<T: Sample>(desk: &mut Desk, r: &mut Random) {
    let film = Film::<T>::draw(r);
    let Some(found) = film.found() else {
        desk.tally.differs("a film that the crate stops on");
        return;
    };

    // What the port is given: planes already reduced, and the inter costs.
    let eye = detector::<T>(&film.settings);
    desk.out.words(&film.settings).word(film.frames.len() as u64);
    for f in &film.frames {
        let reduced = eye.door_reduced(&f.y_plane);
        let PlaneGeometry { width, height, stride, origin } = reduced.shape;
        desk.out.words(&[width, height, stride, origin].map(|x| x as u64));
        T::put(desk.out, &reduced.samples);
        desk.out.real(f.fed.inter);
    }

    // What the crate answers: the cuts, and the score of each frame that has one; and of which pair it is, as counted.
    let cuts: Vec<u64> = found.scene_changes.iter().map(|&n| n as u64).collect();
    let pairs = decided_pairs(&film.settings, film.frames.len());
    if pairs.iter().flatten().count() != found.scores.len() {
        desk.tally.differs("the scores of a film");
    }
    desk.out.word(cuts.len() as u64).words(&cuts);
    desk.out.word(found.scores.len() as u64);
    for (n, e) in &found.scores {
        desk.out.word(*n as u64).word(pairs[*n].unwrap_or(0)).words(&score(e).map(f64::to_bits));
    }
    desk.out.end(T::KINDS.film);
    desk.tally.films += 1;
}
