//! The sizes of a state, of a set and of a carry, and the places of a state's numbers, as the C header has them: no number
//! stands twice.
//! BRINE_HEADER names the header for the compiler.

const HEADER: &[u8] = include_bytes!(env!("BRINE_HEADER"));

/// How many numbers a state has: those up to the pair numbers, and one of these for each score.
pub const NUMBERS: usize = number(b"BRINE_NUMBERS");
/// How many scores it has room for, how many doubles a score is, and how many doubles there are.
pub const ROOM: usize = number(b"BRINE_ENTRIES");
pub const SCORE: usize = number(b"BRINE_SCORE_DOUBLES");
pub const SCORES: usize = number(b"BRINE_SCORES");
/// The most frames of a set.
pub const SET_LIMIT: u64 = number(b"BRINE_SET_LIMIT") as u64;
/// How many numbers are carried from one strip of two frames to the next.
pub const CARRY: usize = number(b"BRINE_CARRY");

/// Places of the numbers; the pair numbers begin at the last one.
pub const OFFSET: usize = number(b"BRINE_OFFSET");
pub const LAST: usize = number(b"BRINE_LAST_NUMBER");
pub const LENGTH: usize = number(b"BRINE_LAST_LENGTH");
pub const FIRST: usize = number(b"BRINE_FIRST_NUMBER");
pub const RELEASE: usize = number(b"BRINE_RELEASE_NUMBER");
pub const COUNT: usize = number(b"BRINE_COUNT");
pub const PAIRS: usize = number(b"BRINE_PAIRS");

/// Whether this word stands at a place of the header.
const fn stands(at: usize, word: &[u8]) -> bool {
    let mut i = 0;
    while i < word.len() {
        if at + i >= HEADER.len() || HEADER[at + i] != word[i] {
            return false;
        }
        i += 1;
    }
    true
}

/// Whether a byte can be part of a name.
const fn names(byte: u8) -> bool {
    byte.is_ascii_alphanumeric() || byte == b'_'
}

/// The place behind this text and the name, where they stand together from `at` on.
const fn behind(mut at: usize, text: &[u8], name: &[u8]) -> Option<usize> {
    while at < HEADER.len() {
        let end = at + text.len() + name.len();
        if stands(at, text) && stands(at + text.len(), name) && !names(HEADER[end]) {
            return Some(end);
        }
        at += 1;
    }
    None
}

/// What a name stands for: what it is defined as, or its place among the numbers.
const fn number(name: &[u8]) -> usize {
    match behind(0, b"#define ", name) {
        Some(end) => defined(end + 1),
        None => place(name),
    }
}

/// What is written from a place on: a number, a name, or in brackets the sum or the product of two of these.
const fn defined(at: usize) -> usize {
    if HEADER[at] != b'(' {
        return word(at).0;
    }
    let (first, sign) = word(at + 1);
    let (second, end) = word(sign + 3);
    assert!(HEADER[end] == b')', "the header has more than two of them");
    if stands(sign, b" + ") {
        return first + second;
    }
    assert!(stands(sign, b" * "), "the header neither adds nor multiplies");
    first * second
}

/// A number, or what a name stands for, and the place behind it.
const fn word(at: usize) -> (usize, usize) {
    let (mut end, mut value) = (at, 0);
    while HEADER[end].is_ascii_digit() {
        value = value * 10 + (HEADER[end] - b'0') as usize;
        end += 1;
    }
    if end > at {
        return (value, end);
    }
    while names(HEADER[end]) {
        end += 1;
    }
    (number(HEADER.split_at(end).0.split_at(at).1), end)
}

/// Which of the numbers' names this is: each begins a line.
const fn place(name: &[u8]) -> usize {
    let Some(mut at) = behind(0, b"enum ", b"brine_number") else { panic!("the header has no numbers") };
    let Some(end) = behind(at, b"\n    ", name) else { panic!("the header has no such name") };
    let mut before = 0;
    while at < end {
        before += stands(at, b"\n    BRINE_") as usize;
        at += 1;
    }
    before - 1
}
