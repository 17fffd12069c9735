//! The memory of crates/replay as the fixed list edits it: one word for each place that is given or lent.

/// Numbers come first: the answer that is due and what is given, then the numbers of a state.
/// The last of them is the length of a log's torn rest.
pub const STATE: usize = 16;
pub const TORN: usize = 511;
/// Floats that are lent, of which the last is a quotient; three lists that are given; costs; entries; two planes.
pub const SCORES: usize = 512;
pub const QUOTIENT: usize = 1023;
pub const LISTS: usize = 1024;
pub const LIST: usize = 64;
pub const COSTS: usize = 1216;
pub const ENTRIES: usize = 1280;
pub const FIRST: usize = 1408;
pub const SECOND: usize = 10112;
const PLACES: usize = 18816;
/// The room of strips has the last places of the second plane; the two totals that their end writes have those of the numbers.
pub const HELD: usize = 18304;
pub const HELD_PLACES: usize = PLACES - HELD;
pub const DIFFERENCE: usize = 510;
pub const TOTAL: usize = 511;

/// A copy is looked for in the other plane, and among so many places before and behind, unless so many words can stay where
/// they are.
const NEAR: usize = 700;
const STAY: usize = 8;

/// What the reader's memory holds, what it is to hold next, and the end of what was put there.
pub struct Memory {
    now: Vec<u64>,
    next: Vec<u64>,
    end: usize,
}

impl Memory {
    pub fn new() -> Self {
        Memory { now: vec![0; PLACES], next: vec![0; PLACES], end: 0 }
    }

    /// Words from the first place of a kind on.
    pub fn put(&mut self, at: usize, words: &[u64]) {
        let ends = [STATE, TORN, SCORES, QUOTIENT, LISTS, COSTS, ENTRIES, FIRST, SECOND, PLACES];
        let (room, end) = (ends.into_iter().find(|&end| end > at).unwrap(), at + words.len());
        assert!(end <= room, "words that the reader has no room for");
        if self.next[at..end] != *words {
            self.next[at..end].copy_from_slice(words);
            self.end = self.end.max(end);
        }
    }

    /// The words and copies that make what is to be of what is.
    pub fn edits(&mut self) -> String {
        let (mut text, mut at) = (String::new(), 0);
        while at < self.end {
            let (from, count) = self.copied(at);
            let word = |i: usize| format!("{:x} ", self.next[i]);
            let copy = format!("{count:x}.{from:x} ");
            let is_shorter = copy.len() < (at..at + count.min(8)).map(|i| word(i).len()).sum::<usize>();
            text += if is_shorter { copy } else { word(at) }.as_str();
            let end = at + if is_shorter { count } else { 1 };
            self.now[at..end].copy_from_slice(&self.next[at..end]);
            at = end;
        }
        self.end = 0;
        text
    }

    /// The longest part that the reader has to copy for what is to stand from a place on.
    fn copied(&self, at: usize) -> (usize, usize) {
        let other = if at < SECOND { at } else { at + FIRST - SECOND };
        let mut best = [at, other].map(|from| (from, self.copies(from, at))).into_iter().max_by_key(|b| b.1).unwrap();
        if best.1 >= STAY {
            return best;
        }
        let mut from = at.saturating_sub(NEAR);
        while from < (at + NEAR).min(PLACES) {
            if self.now[from] == self.next[at] {
                let count = self.copies(from, at);
                best = if count > best.1 { (from, count) } else { best };
            }
            from += 1;
        }
        best
    }

    /// How many words are as they should be where the reader copies them one by one.
    fn copies(&self, from: usize, at: usize) -> usize {
        let mut k = 0;
        while at + k < self.end && from + k < PLACES {
            let is_new = at <= from + k && from + k < at + k;
            if self.next[at + k] != if is_new { self.next[from + k] } else { self.now[from + k] } {
                break;
            }
            k += 1;
        }
        k
    }
}
