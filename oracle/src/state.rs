//! A detector's state as it is lent, and a call.
use crate::sizes::{COUNT, NUMBERS, OFFSET, PAIRS, ROOM, SCORE, SCORES};

/// Inter cost, importance, backward, forward, threshold.
pub type Score = [f64; SCORE];

/// A score, and which pair it is.
#[derive(Clone, Copy)]
pub struct Entry {
    pub pair: u64,
    pub score: Score,
}

/// Width, height, depth, lookahead, mode, min, max, offset, last number, last length, first number, release number, count,
/// and a pair number for each entry; and the entries' places.
#[derive(Clone)]
pub struct State {
    pub numbers: [u64; NUMBERS],
    pub places: [f64; SCORES],
}

#[derive(Clone, Debug)]
pub struct Call {
    pub set: u64,
    pub frame: u64,
    pub previous: u64,
    pub inter: Vec<f64>,
    pub importance: Vec<f64>,
    pub threshold: Vec<f64>,
}

impl State {
    pub fn mode(&self) -> u64 {
        self.numbers[4]
    }
    /// A, rule 1.
    pub fn ahead(&self) -> u64 {
        if self.numbers[3] >= 5 { 5 } else { 0 }
    }
    pub fn offset(&self) -> u64 {
        self.numbers[OFFSET]
    }
    /// How many entries there are, as far as there is room.
    pub fn count(&self) -> usize {
        self.numbers[COUNT].min(ROOM as u64) as usize
    }
    pub fn entries(&self) -> Vec<Entry> {
        let scores = self.places.chunks(SCORE).map(|c| [c[0], c[1], c[2], c[3], c[4]]);
        self.pairs().iter().zip(scores).map(|(&pair, score)| Entry { pair, score }).collect()
    }
    /// The entries' pair numbers, the front's first.
    pub fn pairs(&self) -> &[u64] {
        &self.numbers[PAIRS..PAIRS + self.count()]
    }
    /// Entries below the count go to their places, and their pair numbers to theirs; the other places stay.
    pub fn put(&mut self, offset: u64, entries: &[Entry]) {
        self.numbers[OFFSET] = offset;
        self.numbers[COUNT] = entries.len() as u64;
        for (k, entry) in entries.iter().enumerate() {
            self.numbers[PAIRS + k] = entry.pair;
            self.places[k * SCORE..][..SCORE].copy_from_slice(&entry.score);
        }
    }
}
