//! The crate's detector, and a list of pair numbers beside its deque. The crate's scores carry none, so they are counted: which
//! frames its code compares is watched, and how long its deque is before a call and after it. The reading has no say in this.
use std::sync::Arc;

use fed::ScenecutResult;
use v_frame::{
    frame::{Fed, Frame},
    plane::{Mark, Plane},
    watch::{self, Compared},
};

use crate::attempt::attempt;
use crate::run::{Detector, detector};
use crate::state::{Entry, Score};

/// What the crate answers, its offset and entries after the call with the numbers counted, and the score that it gives.
pub struct Answer {
    pub answer: i64,
    pub offset: u64,
    pub entries: Vec<Entry>,
    pub given: Option<Score>,
    /// Whether the deque was empty and now is not, and whether a frame was compared twice.
    pub fills: bool,
    pub repeats: bool,
    /// Whether the count can be right.
    pub is_counted: bool,
}

pub struct Counted {
    detector: Detector,
    /// The pair numbers of its entries, the front's first.
    numbers: Vec<u64>,
    /// How many entries, from the front on, the crate's code has scored: the others were put there.
    pub scored: usize,
}

impl Counted {
    pub fn new(detector: Detector, numbers: &[u64]) -> Self {
        Counted { detector, numbers: numbers.to_vec(), scored: 0 }
    }

    fn length(&self) -> usize {
        self.detector.door_look().1.len()
    }

    /// The crate's answer to a call; nothing where it panics.
    pub fn ask(&mut self, set: &[&Arc<Frame<u8>>], n: usize, p: usize) -> Option<Answer> {
        let before = self.length();
        let (found, compared) = watch::during(|| attempt(|| self.detector.analyze_next_frame(set, n, p)));
        let (cut, given) = found?;
        let is_counted = self.count(before, &compared, self.length());
        let (offset, entries) = self.detector.door_look();
        let entries = self.numbers.iter().zip(entries).map(|(&pair, e)| Entry { pair, score: score(e) });
        Some(Answer {
            answer: i64::from(cut) + 2 * i64::from(given.is_some()),
            offset: offset as u64,
            entries: entries.collect(),
            given: given.map(|g| score(&g)),
            fills: before == 0 && given.is_some(),
            repeats: compared.windows(2).any(|two| two[0].frame == two[1].frame),
            is_counted,
        })
    }

    /// Each comparison puts an entry in front; what the deque then lacks was dropped at its back. Whether that can be, and
    /// whether each number that the crate hands on with a frame is the frame's own.
    fn count(&mut self, before: usize, compared: &[Compared], after: usize) -> bool {
        let was_even = self.numbers.len() == before;
        for one in compared {
            self.numbers.insert(0, one.frame);
        }
        let grown = self.numbers.len();
        self.numbers.truncate(after);
        self.scored = (self.scored + compared.len()).min(after);
        was_even && after <= grown && compared.iter().all(|one| one.said.is_none_or(|number| number == one.frame))
    }
}

/// Which pair the crate decides on for each frame of a film, as its driver walks over it: a set begins one frame before and has
/// lookahead + 2 frames, fewer at the end. Nothing for a frame without a score. What was measured bears on none of this.
pub fn decided_pairs(settings: &[u64; 7], frames: usize) -> Vec<Option<u64>> {
    let frame = |i| Arc::new(Frame::of(Plane::marked(Mark { frame: i, difference: 0 }), Fed::default()));
    let film: Vec<_> = (0..frames as u64).map(frame).collect();
    let mut d = Counted::new(detector(settings), &[]);
    let mut decided = |n: usize| {
        let set: Vec<_> = film[n.checked_sub(1)?..].iter().take(settings[3] as usize + 2).collect();
        let answer = d.ask(&set, n, 0).filter(|answer| answer.is_counted)?;
        answer.given.map(|_| answer.entries[answer.offset as usize].pair)
    };
    (0..frames).map(&mut decided).collect()
}

fn score(e: &ScenecutResult) -> Score {
    [e.inter_cost, e.imp_block_cost, e.backward_adjusted_cost, e.forward_adjusted_cost, e.threshold]
}

pub fn result(e: &Entry) -> ScenecutResult {
    let [inter_cost, imp_block_cost, backward_adjusted_cost, forward_adjusted_cost, threshold] = e.score;
    ScenecutResult { inter_cost, imp_block_cost, backward_adjusted_cost, forward_adjusted_cost, threshold }
}
