//! What was asked, and where the crate's code and the reading of document 01 differ.
use std::collections::BTreeMap;

use crate::counted::Answer;

#[derive(Default)]
pub struct Tally {
    pub calls: u64,
    /// Pair numbers counted beside the crate's deque, after each call that has a score; calls that fill an empty deque, and those
    /// that score an item twice.
    pub pairs: u64,
    pub fills: u64,
    pub repeats: u64,
    pub cuts: u64,
    pub measures: u64,
    pub films: u64,
    /// Reductions by what stands in place of the crate's, whose text is missing.
    pub reductions: u64,
    /// Calls and measures beside these that the reading alone answers: the crate cannot be asked.
    pub read_calls: u64,
    pub read_measures: u64,
    /// Scans, reads and appends of a log, which the crate does not have.
    pub read_logs: u64,
    /// Whole films that came in strips, beside the crate, and their strips; accepted calls of strips, which the reading answers.
    pub strip_films: u64,
    pub strips: u64,
    pub strip_calls: u64,
    /// Of each call of strips: two refusals that are tested one after the other, by their place there, and how often both apply.
    pub neighbours: BTreeMap<(&'static str, usize), (u32, u32, u64)>,
    /// For each refusal: how many damaged calls the crate stopped on, ran through, or could not be given.
    pub refused: BTreeMap<u32, [u64; 3]>,
    pub different: u64,
}

pub enum Ran {
    Stopped = 0,
    Through = 1,
    NotAsked = 2,
}

impl Tally {
    pub fn refusal(&mut self, number: u32, ran: Ran) {
        self.refused.entry(number).or_default()[ran as usize] += 1;
    }

    /// The answer to a call that the reading alone answers; `accepted` counts those that are accepted.
    pub fn read(&mut self, due: Result<u64, u32>, accepted: fn(&mut Self) -> &mut u64) -> i64 {
        match due {
            Ok(number) => {
                *accepted(self) += 1;
                number as i64
            }
            Err(fault) => {
                self.refusal(fault, Ran::NotAsked);
                -i64::from(fault)
            }
        }
    }

    /// The refusals of a call in their order, and which of them apply.
    pub fn order(&mut self, call: &'static str, order: &[(u32, bool)]) {
        for (at, both) in order.windows(2).enumerate() {
            let count = self.neighbours.entry((call, at)).or_insert((both[0].0, both[1].0, 0));
            count.2 += u64::from(both[0].1 && both[1].1);
        }
    }

    /// A detector call that the crate answers.
    pub fn asked(&mut self, theirs: &Answer) {
        self.calls += 1;
        self.pairs += if theirs.given.is_some() { theirs.entries.len() as u64 } else { 0 };
        self.fills += u64::from(theirs.fills);
        self.repeats += u64::from(theirs.repeats);
    }

    pub fn differs(&mut self, what: &str) {
        self.different += 1;
        if self.different <= 5 {
            eprintln!("oracle: the crate and document 01 differ: {what}");
        }
    }

    /// Whether the answer that is due at an edge was given.
    pub fn due(&mut self, is_due: bool) {
        if !is_due {
            self.differs("another answer is due");
        }
    }

    pub fn print(&self, seed: u64, of: &str) {
        eprintln!(
            "oracle: seed {seed}, {of}: the crate answered {} detector calls, {} measures, {} films; the shims {} reductions; the \
             reading alone {} calls, {} measures, {} of the log; {} cuts; crate and reading differ on {}",
            self.calls,
            self.measures,
            self.films,
            self.reductions,
            self.read_calls,
            self.read_measures,
            self.read_logs,
            self.cuts,
            self.different
        );
        eprintln!(
            "oracle: beside the crate's deque {} pair numbers were counted; {} calls fill an empty one, {} score an item twice",
            self.pairs, self.fills, self.repeats
        );
        self.print_strips();
        for (number, [stopped, through, not]) in &self.refused {
            eprintln!("oracle: refusal {number:2}: the crate stopped {stopped}, ran {through}, was not asked {not}");
        }
    }

    fn print_strips(&self) {
        eprintln!(
            "oracle: {} films, measured whole by the crate, came in {} strips; the reading answered {} calls of strips",
            self.strip_films, self.strips, self.strip_calls
        );
        let pairs = self.neighbours.iter().map(|((call, _), (first, next, count))| format!("{call} {first} and {next} {count}"));
        let pairs: Vec<String> = pairs.collect();
        eprintln!("oracle: strips: of two refusals that are tested one after the other both apply: {}", pairs.join(", "));
    }
}
