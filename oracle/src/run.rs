//! A film and the crate's detector over it.
use std::sync::Arc;

use fed::{SceneChangeDetector, SceneDetectionSpeed};
use num_rational::Rational32;
use v_frame::{
    chroma::ChromaSubsampling,
    frame::{Fed, Frame},
    plane::{Mark, Plane},
};

use crate::attempt::attempt;
use crate::counted::{Answer, Counted, result};
use crate::random::Random;
use crate::reading::{FAST, NONE, STANDARD, scaled};
use crate::sizes::{COUNT, OFFSET, ROOM, SET_LIMIT};
use crate::state::{Call, Entry, State};
use crate::values::{Taste, same};

/// Its frames carry marks in place of samples, at any depth: the sample's word bears on nothing here.
pub type Detector = SceneChangeDetector<u8>;

fn speed(mode: u64) -> SceneDetectionSpeed {
    match mode {
        NONE => SceneDetectionSpeed::None,
        FAST => SceneDetectionSpeed::Fast,
        _ => SceneDetectionSpeed::Standard,
    }
}

/// The crate's detector for settings that it can have: width, height, depth, lookahead, mode, min, max.
pub fn detector(n: &[u64]) -> Detector {
    SceneChangeDetector::new(
        (n[0] as usize, n[1] as usize),
        n[2] as usize,
        Rational32(1, 600),
        ChromaSubsampling::Monochrome,
        n[3] as usize,
        speed(n[4]),
        n[5] as usize,
        n[6] as usize,
    )
}

/// The crate reserves room for the whole lookahead, so an enormous one ends the program.
pub const LOOKAHEAD_MOST: u64 = 1 << 20;

/// How many frames a film has beyond its calls: the longest set, and what damage makes of it.
const BEYOND: u64 = SET_LIMIT + 24;

pub fn possible(s: &State) -> bool {
    s.numbers[3] <= LOOKAHEAD_MOST
}

/// A film from frame `first − 1` on: each frame carries the measures of the pair that it ends.
pub struct Film {
    first: u64,
    frames: Vec<Arc<Frame<u8>>>,
    /// Whether the crate's code can have made these deltas.
    pub real: bool,
    /// Whether each entry's inter cost is its frame's: where frames are reduced an item's second score is 0.
    is_plain: bool,
}

impl Film {
    pub fn new(r: &mut Random, s: &State, first: u64, calls: u64) -> Film {
        let (taste, depth) = (Taste::new(r), s.numbers[2]);
        let pixels = if possible(s) { detector(&s.numbers).door_pixels() as u64 } else { 1 };
        let real = s.mode() != FAST || !r.once_in(8);
        let frames = (0..calls + BEYOND).map(|i| {
            let difference = taste.difference(r, depth, pixels);
            let inter = match s.mode() {
                FAST if real => difference as f64 / pixels as f64,
                _ => taste.inter(r),
            };
            let fed = Fed { inter, importance: taste.importance(r, depth), threshold: taste.threshold(r) };
            Arc::new(Frame::of(Plane::marked(Mark { frame: first - 1 + i, difference }), fed))
        });
        let frames = frames.collect();
        Film { first, frames, real, is_plain: !scaled(s) }
    }

    /// A film in which every pair has the same measures; in Fast mode the delta times the number of samples is a whole number.
    pub fn fixed(s: &State, first: u64, [inter, importance, threshold]: [f64; 3]) -> Film {
        let difference = (inter * detector(&s.numbers).door_pixels() as f64) as u64;
        let fed = Fed { inter, importance, threshold };
        let frame = |i| Arc::new(Frame::of(Plane::marked(Mark { frame: first - 1 + i, difference }), fed));
        Film { first, frames: (0..BEYOND).map(frame).collect(), real: true, is_plain: !scaled(s) }
    }

    fn frame(&self, number: u64) -> Option<&Arc<Frame<u8>>> {
        self.frames.get((number + 1).checked_sub(self.first)? as usize)
    }

    /// The call for frame n with a set of so many frames: item k is pair n + k.
    pub fn call(&self, r: &mut Random, mode: u64, set: u64, n: u64, previous: u64) -> Call {
        let pairs = set.saturating_sub(1);
        let list = |part: fn(&Fed) -> f64| -> Vec<f64> {
            (0..pairs).map(|k| part(&self.frame(n + k).unwrap().fed)).collect()
        };
        let mut c = Call {
            set,
            frame: n,
            previous,
            inter: list(|f| f.inter),
            importance: list(|f| f.importance),
            threshold: list(|f| f.threshold),
        };
        // A list that is not read may be anything.
        if mode != STANDARD && r.once_in(2) {
            c.importance = vec![f64::NEG_INFINITY; r.below(4) as usize];
            c.threshold = vec![f64::NAN; r.below(20) as usize];
        }
        if mode == NONE && r.once_in(2) {
            c.inter = vec![f64::NAN; r.below(20) as usize];
        }
        c
    }

    /// The crate's detector in a given state, about to be called for frame n.
    pub fn placed(&self, s: &State, n: u64) -> Counted {
        Counted::new(placed(s, self.frame((n + s.offset()).saturating_sub(1))), s.pairs())
    }

    /// The crate's answer; nothing where it panics.
    pub fn ask(&self, d: &mut Counted, c: &Call) -> Option<Answer> {
        let start = c.frame.checked_sub(self.first)? as usize;
        let set: Vec<_> = self.frames.get(start..start.checked_add(c.set as usize)?)?.iter().collect();
        let mut answer = d.ask(&set, c.frame as usize, c.previous as usize)?;
        answer.is_counted &= !self.is_plain || answer.entries[..d.scored].iter().all(|e| self.carries(e));
        Some(answer)
    }

    /// Whether an entry's inter cost is that of the frame which its pair number names.
    fn carries(&self, e: &Entry) -> bool {
        self.frame(e.pair).is_some_and(|f| same(f.fed.inter, e.score[0]))
    }
}

/// A detector in a given state. Where it has entries, it keeps the plane that was compared last.
fn placed(s: &State, last: Option<&Arc<Frame<u8>>>) -> Detector {
    let mut d = detector(&s.numbers);
    let entries: Vec<_> = s.entries().iter().map(result).collect();
    let kept = if entries.is_empty() { None } else { last.map(|f| &**f) };
    d.door_put(s.offset() as usize, &entries, kept);
    d
}

/// Gives the crate a call that is refused here: true if it runs through, false if it panics, nothing if the crate cannot
/// be given such a call.
pub fn ask_refused(s: &State, c: &Call, fault: u32) -> Option<bool> {
    let (n, due) = (&s.numbers, c.set.saturating_sub(1));
    let lists: &[&Vec<f64>] = match n[4] {
        NONE => &[],
        FAST if fault == 10 => return None,
        FAST => &[&c.inter],
        STANDARD => &[&c.inter, &c.importance, &c.threshold],
        _ => return None,
    };
    let large = n[..4].iter().any(|&x| x >= 1 << 20) || n[COUNT] > ROOM as u64 || c.set > BEYOND || n[OFFSET] > BEYOND;
    if large || lists.iter().any(|l| l.len() as u64 != due) {
        return None;
    }
    let item = |list: usize, k: u64| lists.get(list).and_then(|l| l.get(k as usize)).copied().unwrap_or(0.0);
    let frames = (0..c.set).map(|i| {
        let k = i.wrapping_sub(1);
        let fed = Fed { inter: item(0, k), importance: item(1, k), threshold: item(2, k) };
        let difference = (fed.inter * (n[0] * n[1]) as f64) as u64;
        Arc::new(Frame::of(Plane::marked(Mark { frame: i, difference }), fed))
    });
    let frames: Vec<_> = frames.collect();
    let set: Vec<_> = frames.iter().collect();
    let mut d = placed(s, frames.get(s.offset() as usize));
    let (n, p) = (c.frame as usize, c.previous as usize);
    Some(attempt(|| d.analyze_next_frame(&set, n, p)).is_some())
}
