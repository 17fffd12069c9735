//! The fixed list: the records of the stream as lines of text, for crates/replay to read. A line is what is given, the
//! letter of a call, and what should stand in the memory after it. Every NaN is written as one.
use crate::kind::Kind;
use crate::memory::{
    COSTS, DIFFERENCE, ENTRIES, FIRST, HELD, HELD_PLACES, LIST, LISTS, Memory, QUOTIENT, SCORES, SECOND, STATE, TORN, TOTAL,
};
use crate::sizes::{COUNT, NUMBERS, OFFSET, PAIRS, ROOM};
use crate::words::{Reader, bits};

/// What a place for a quotient holds before a call: the bits of a float that no call answers.
const BEFORE: [u64; 1] = [5];
/// The same for the length of a log's torn rest: none is so long.
const TORN_BEFORE: [u64; 1] = [47];
const ENTRY: usize = 5;

/// A sample's word: how its samples are read, and the letters of the calls over them. a to f are digits.
struct Word {
    samples: fn(&mut Reader) -> Vec<u64>,
    difference: char,
    total: char,
    delta: char,
    importance: char,
    costs: char,
    reduction: char,
    satd: char,
    strips: char,
}

const BYTE: Word = Word {
    samples: |r| r.bytes(),
    difference: 'P',
    total: 'M',
    delta: 'D',
    importance: 'I',
    costs: 'C',
    reduction: 'V',
    satd: 'B',
    strips: 'X',
};

const DEEP: Word = Word {
    samples: |r| r.quarters(),
    difference: 'Q',
    total: 'O',
    delta: 'U',
    importance: 'J',
    costs: 'K',
    reduction: 'W',
    satd: 'Y',
    strips: 'Z',
};

pub struct Paper {
    text: String,
    memory: Memory,
    /// A state that the next step is to find: its numbers and its floats.
    given: Option<[Vec<u64>; 2]>,
}

impl Paper {
    pub fn new() -> Self {
        Paper { text: String::new(), memory: Memory::new(), given: None }
    }

    pub fn record(&mut self, kind: Kind, words: &[u64]) {
        let mut r = Reader(words);
        match kind {
            Kind::Scale => {
                let sides = r.words(3);
                self.call('S', r.word(), &sides, &[]);
            }
            Kind::Planes => self.planes(&mut r, &BYTE),
            Kind::Planes16 => self.planes(&mut r, &DEEP),
            Kind::Intra => self.intra(&mut r, &BYTE),
            Kind::Intra16 => self.intra(&mut r, &DEEP),
            Kind::Threshold => self.threshold(&mut r),
            Kind::Hadamard => self.hadamard(&mut r),
            Kind::Satd => self.satd(&mut r, &BYTE),
            Kind::Satd16 => self.satd(&mut r, &DEEP),
            Kind::Fresh => self.fresh(&mut r),
            Kind::State => self.given = Some([r.words(NUMBERS), r.reals()]),
            Kind::Step => self.step(&mut r),
            Kind::Log => self.log(&mut r),
            Kind::Append => self.append(&mut r),
            Kind::Reduce => self.reduce(&mut r, &BYTE),
            Kind::Reduce16 => self.reduce(&mut r, &DEEP),
            Kind::StripsStart => self.strips_start(&mut r),
            Kind::StripsAdd => self.strips_add(&mut r, &BYTE),
            Kind::StripsAdd16 => self.strips_add(&mut r, &DEEP),
            Kind::StripsEnd => self.strips_end(&mut r),
            Kind::End | Kind::Film | Kind::Film16 => (),
        }
        assert!(matches!(kind, Kind::End | Kind::Film | Kind::Film16) || r.0.is_empty());
    }

    fn put(&mut self, at: usize, words: &[u64]) {
        self.memory.put(at, words);
    }

    /// A line: the answer that is due and the numbers that are given, with what was put; the call; what it writes.
    fn call(&mut self, letter: char, answer: u64, numbers: &[u64], written: &[(usize, &[u64])]) {
        self.put(0, &[&[answer], numbers].concat());
        let given = self.memory.edits();
        for &(at, words) in written {
            self.put(at, words);
        }
        let line = format!("{given}{letter} {}", self.memory.edits());
        self.text += line.trim_end();
        self.text.push('\n');
    }

    /// A plane's samples are put. Its length, and its width, height, stride and origin.
    fn plane(&mut self, at: usize, r: &mut Reader, word: &Word) -> Vec<u64> {
        let (shape, samples) = (r.words(4), (word.samples)(r));
        self.put(at, &samples);
        [vec![samples.len() as u64], shape].concat()
    }

    fn planes(&mut self, r: &mut Reader, word: &Word) {
        let depth = r.words(1);
        let numbers = [depth, self.plane(FIRST, r, word), self.plane(SECOND, r, word)].concat();
        let answers = r.words(4);
        let quotients = r.words(2);
        self.call(word.difference, answers[0], &numbers, &[]);
        self.call(word.total, answers[1], &numbers, &[]);
        self.quotient(word.delta, answers[2], &numbers, quotients[0]);
        self.quotient(word.importance, answers[3], &numbers, quotients[1]);
    }

    /// A call that writes a quotient where it is not refused.
    fn quotient(&mut self, letter: char, answer: u64, numbers: &[u64], quotient: u64) {
        self.put(QUOTIENT, &BEFORE);
        let is_refused = (answer as i64) < 0;
        let after = if is_refused { BEFORE } else { [bits(quotient)] };
        self.call(letter, answer, numbers, &[(QUOTIENT, &after)]);
    }

    fn intra(&mut self, r: &mut Reader, word: &Word) {
        let depth = r.words(1);
        let (first, work, room) = (self.plane(FIRST, r, word), self.plane(SECOND, r, word), r.halves());
        self.put(COSTS, &room);
        let numbers = [depth, first, work, vec![room.len() as u64]].concat();
        let (answer, after, costs) = (r.word(), (word.samples)(r), r.halves());
        self.call(word.costs, answer, &numbers, &[(COSTS, &costs), (SECOND, &after)]);
    }

    /// The factor stands where the length of the costs does.
    fn reduce(&mut self, r: &mut Reader, word: &Word) {
        let (depth, factor) = (r.words(1), r.words(1));
        let numbers = [depth, self.plane(FIRST, r, word), self.plane(SECOND, r, word), factor].concat();
        let (answer, after) = (r.word(), (word.samples)(r));
        self.call(word.reduction, answer, &numbers, &[(SECOND, &after)]);
    }

    /// Lengths stand where those of planes do.
    fn satd(&mut self, r: &mut Reader, word: &Word) {
        let (first, second) = ((word.samples)(r), (word.samples)(r));
        self.put(FIRST, &first);
        self.put(SECOND, &second);
        let numbers = [0, first.len() as u64, 8, 8, 8, 0, second.len() as u64];
        self.call(word.satd, r.word(), &numbers, &[]);
    }

    fn threshold(&mut self, r: &mut Reader) {
        let (costs, count, answer, value) = (r.halves(), r.word(), r.word(), r.word());
        self.put(COSTS, &costs);
        self.quotient('T', answer, &[costs.len() as u64, count], value);
    }

    fn hadamard(&mut self, r: &mut Reader) {
        let signed = |list: Vec<u64>| -> Vec<u64> { list.iter().map(|&x| x as i32 as u64).collect() };
        let (side, list, answer, after) = (r.word(), signed(r.halves()), r.word(), signed(r.halves()));
        self.put(ENTRIES, &list);
        let letter = if side == 4 { 'H' } else { 'G' };
        self.call(letter, answer, &[list.len() as u64], &[(ENTRIES, &after)]);
    }

    /// A fresh detector is made over what stands there: the pair numbers stay.
    fn fresh(&mut self, r: &mut Reader) {
        self.given = None;
        let (settings, answer, numbers) = (r.words(9), r.word(), r.words(NUMBERS));
        let written = [(STATE, &numbers[..PAIRS])];
        self.call('F', answer, &settings, if answer == 0 { &written } else { &[] });
    }

    /// The numbers of a state without the pair numbers behind its entries, which stay as they are.
    fn known(numbers: &[u64]) -> &[u64] {
        &numbers[..PAIRS + numbers[COUNT].min(ROOM as u64) as usize]
    }

    /// The places behind the entries of a state stay as they are.
    fn step(&mut self, r: &mut Reader) {
        if let Some([numbers, floats]) = self.given.take() {
            let known = Self::known(&numbers);
            self.put(STATE, known);
            self.put(SCORES, &floats[..(known.len() - PAIRS) * ENTRY]);
        }
        let (call, lists) = (r.words(5), [r.reals(), r.reals(), r.reals()]);
        for (k, list) in lists.iter().enumerate() {
            assert!(list.len() <= LIST, "a list that the reader has no room for");
            self.put(LISTS + k * LIST, list);
        }
        let numbers = [call, lists.iter().map(|l| l.len() as u64).collect()].concat();
        let answer = r.word();
        if (answer as i64) < 0 {
            return self.call('N', answer, &numbers, &[]);
        }
        let (after, entries, score) = (r.words(NUMBERS), r.reals(), r.reals());
        // The score that the crate gives is the entry at the offset.
        let at = after[OFFSET] as usize * ENTRY;
        assert!(score.is_empty() || score == entries[at..at + ENTRY]);
        self.call('N', answer, &numbers, &[(STATE, Self::known(&after)), (SCORES, &entries)]);
    }

    /// A scan and a read of one log.
    fn log(&mut self, r: &mut Reader) {
        let (log, scanned, read, torn) = (r.bytes(), r.word(), r.word(), r.words(1));
        let (numbers, bits, cuts) = (r.halves(), r.list(), r.bytes());
        let (numbers_after, bits_after, cuts_after) = (r.halves(), r.words(bits.len()), r.bytes());
        let torn_after = |answer: u64| if (answer as i64) < 0 { &TORN_BEFORE } else { &torn[..] };
        let len = |list: &[u64]| list.len() as u64;
        self.put(FIRST, &log);
        self.put(TORN, &TORN_BEFORE);
        self.call('L', scanned, &[len(&log)], &[(TORN, torn_after(scanned))]);
        for (at, list) in [(TORN, &TORN_BEFORE[..]), (COSTS, &numbers), (STATE, &bits), (SECOND, &cuts)] {
            self.put(at, list);
        }
        let written = [(TORN, torn_after(read)), (COSTS, &numbers_after), (STATE, &bits_after), (SECOND, &cuts_after)];
        self.call('R', read, &[len(&log), len(&numbers), len(&bits), len(&cuts)], &written);
    }

    /// The five floats are given by their bits.
    fn append(&mut self, r: &mut Reader) {
        let (log, used_number, floats, cut) = (r.bytes(), r.words(2), r.words(5).into_iter().map(bits).collect(), r.words(1));
        let (answer, after) = (r.word(), r.bytes());
        self.put(FIRST, &log);
        let numbers = [vec![log.len() as u64], used_number, floats, cut].concat();
        self.call('A', answer, &numbers, &[(FIRST, &after)]);
    }

    /// A carry stands where the numbers of a state do.
    fn strips_start(&mut self, r: &mut Reader) {
        let (sizes, carry) = (r.words(3), r.list());
        let (answer, after) = (r.word(), r.words(carry.len()));
        self.put(STATE, &carry);
        self.call('[', answer, &[sizes, vec![carry.len() as u64]].concat(), &[(STATE, &after)]);
    }

    /// Behind the room's end there is nothing: what a plane of the other word left there is taken away.
    fn strips_add(&mut self, r: &mut Reader, word: &Word) {
        let (carry, mut room, costs) = (r.list(), (word.samples)(r), r.halves());
        let lengths = [costs.len() as u64, room.len() as u64];
        let numbers = [vec![carry.len() as u64], self.plane(FIRST, r, word), self.plane(SECOND, r, word), lengths.to_vec()].concat();
        assert!(numbers[6] <= (HELD - SECOND) as u64, "a strip that the reader has no room for");
        room.resize(HELD_PLACES, 0);
        for (at, list) in [(STATE, &carry), (COSTS, &costs), (HELD, &room)] {
            self.put(at, list);
        }
        let (answer, carry, room, costs) = (r.word(), r.list(), (word.samples)(r), r.halves());
        self.call(word.strips, answer, &numbers, &[(STATE, &carry), (COSTS, &costs), (HELD, &room)]);
    }

    fn strips_end(&mut self, r: &mut Reader) {
        let (carry, answer, mut totals) = (r.list(), r.word(), r.words(2));
        for (at, list) in [(STATE, &carry[..]), (DIFFERENCE, &BEFORE), (TOTAL, &TORN_BEFORE)] {
            self.put(at, list);
        }
        if (answer as i64) < 0 {
            totals = [BEFORE, TORN_BEFORE].concat();
        }
        self.call(']', answer, &[carry.len() as u64], &[(DIFFERENCE, &totals[..1]), (TOTAL, &totals[1..])]);
    }

    /// The whole list. Its end says how many lines are above it, and their check.
    pub fn finish(&mut self) -> &str {
        let check = self.text.bytes().fold(0, |sum, b| (sum * 257 + u64::from(b)) % 0x7fff_ffff);
        let lines = self.text.lines().count() as u64;
        self.call('E', 0, &[lines, check], &[]);
        &self.text
    }
}
