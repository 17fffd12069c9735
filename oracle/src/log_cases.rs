//! Logs of scores: sound ones, damaged ones, what a power cut leaves, and appends to them all. The reading alone answers.
use crate::desk::Desk;
use crate::log_reading::{self as reading, Log, MARK, RECORD, Record};
use crate::random::Random;
use crate::stream::Kind;

/// What lent places hold before a call: a frame number, the bits of a float, a cut byte, a byte of the log.
const NUMBER: u32 = 0x8899_aabb;
const BITS: u64 = 0x0123_4567_89ab_cdef;
const CUT: u8 = 7;
const BYTE: u8 = 0x5a;

const LARGEST: u64 = u32::MAX as u64;

/// The bits of a float: NaNs of many patterns, infinities, both zeros, any other.
fn bits(r: &mut Random) -> u64 {
    let (sign, exponent) = (r.below(2) << 63, 0x7ff << 52);
    match r.below(8) {
        0 => r.of(&[0x7ff8 << 48, 0xfff8 << 48, exponent | 1, u64::MAX, u64::MAX >> 1, (0x7ff8 << 48) | 1]),
        1 => sign | exponent | (r.word() >> 12).max(1),
        2 => sign | exponent,
        3 => sign | r.of(&[0, 0, 1, exponent - 1, 1 << 52]),
        4 => r.part().to_bits(),
        _ => r.word(),
    }
}

/// A record's bytes, right or wrong.
pub fn bytes(mark: [u8; 2], number: u32, bits: [u64; 5], cut: u8) -> Vec<u8> {
    let mut all = mark.to_vec();
    all.extend(number.to_le_bytes());
    bits.iter().for_each(|w| all.extend(w.to_le_bytes()));
    all.push(cut);
    all
}

/// Records whose numbers rise, so many at most: none is above the largest.
fn records(r: &mut Random, most: u64) -> Vec<u8> {
    let any = r.below(1 << 32);
    let mut number = r.of(&[0, 0, 1, 250, 65_530, (1 << 24) - 3, (1 << 31) - 2, LARGEST + 1 - most, any]);
    let step = r.of(&[1, 1, 300, 1 << 27]);
    let mut log = Vec::new();
    for _ in 0..most {
        if number > LARGEST {
            break;
        }
        let scores = std::array::from_fn(|_| bits(r));
        log.extend(bytes(MARK, number as u32, scores, r.below(2) as u8));
        number += r.from_to(1, step);
    }
    log
}

/// A rest of fewer than 47 bytes: the beginning of a record that was being appended, or of one that none would let in, or
/// rubbish.
fn rest(r: &mut Random) -> Vec<u8> {
    let scores = std::array::from_fn(|_| bits(r));
    let mut rest = match r.below(5) {
        0 | 1 => bytes(MARK, u32::MAX, scores, 1),
        2 => bytes(MARK, 0, scores, 0),
        3 => (0..RECORD).map(|_| r.word() as u8).collect(),
        _ => vec![r.of(&[0, 0x53, 0xff]); RECORD],
    };
    let any = r.below(47) as usize;
    rest.truncate(r.of(&[0, 1, 2, 46, any, any]));
    rest
}

/// One wrong thing in the record that begins at a place; what has no record before it may stay right.
fn hurt_at(r: &mut Random, log: &mut [u8], at: usize) {
    let any = r.word() as u32;
    match r.below(8) {
        0 => log[at] = r.of(&[0, 0x43, 0x52, 0xd3]),
        1 => log[at + 1] = r.of(&[0, 0x53, 0x42, 0xc3]),
        2 | 3 => log[at + 46] = r.of(&[2, 3, 0x80, 0xff]),
        4 | 5 if at > 0 => log.copy_within(at - 45..at - 41, at + 2),
        6 => log[at + 2..at + 6].copy_from_slice(&[0xff; 4]),
        _ => log[at + 2..at + 6].copy_from_slice(&r.of(&[0, 1, any]).to_le_bytes()),
    }
}

/// One to three wrong things, in one record or in several.
fn hurt(r: &mut Random, log: &mut [u8]) {
    let count = (log.len() / RECORD) as u64;
    if count == 0 {
        return;
    }
    let mut at = r.below(count) as usize * RECORD;
    for _ in 0..r.from_to(1, 3) {
        hurt_at(r, log, at);
        if r.once_in(2) {
            at = r.below(count) as usize * RECORD;
        }
    }
}

/// A log of any kind.
fn log(r: &mut Random, most: u64) -> Vec<u8> {
    let count = if r.once_in(8) { r.below(most + 1) } else { r.below(most / 4 + 1) };
    let mut log = [records(r, count), rest(r)].concat();
    let len = log.len() as u64;
    match r.below(10) {
        0 => log.truncate(r.below(len + 1) as usize),
        1 => drop(log.drain(..r.below(len.min(50) + 1) as usize)),
        2..=4 => hurt(r, &mut log),
        _ => (),
    }
    log
}

/// The lengths of the three lists: just enough for so many records, longer, or one of them short.
fn places(r: &mut Random, count: usize) -> [usize; 3] {
    let mut places = [count, 5 * count, count];
    if r.once_in(2) {
        places = places.map(|n| n + r.below(7) as usize);
    }
    if r.once_in(4) {
        let k = r.below(3) as usize;
        let full = [count, 5 * count, count][k];
        places[k] = r.of(&[full.saturating_sub(1), full.saturating_sub(1), full / 2, 0]);
    }
    places
}

/// The scan and the read of a log.
pub fn read(desk: &mut Desk, r: &mut Random, most: u64) {
    let log = log(r, most);
    let places = places(r, log.len() / RECORD);
    read_of(desk, &log, places);
}

/// The answer that is due, counted.
fn answer(desk: &mut Desk, due: Result<u64, u32>) -> i64 {
    desk.tally.read(due, |tally| &mut tally.read_logs)
}

/// How many records.
fn count(due: &Result<Log, u32>) -> Result<u64, u32> {
    due.as_ref().map(|log| log.records.len() as u64).map_err(|fault| *fault)
}

pub fn read_of(desk: &mut Desk, log: &[u8], places: [usize; 3]) {
    let (scanned, read) = (reading::scan(log), reading::read(log, places));
    let answers = [answer(desk, count(&scanned)), answer(desk, count(&read))];
    let (mut numbers, mut bits, mut cuts) = (vec![NUMBER; places[0]], vec![BITS; places[1]], vec![CUT; places[2]]);
    let torn = scanned.map_or(0, |log| log.torn as u64);
    desk.out.bytes(log).answer(answers[0]).answer(answers[1]).word(torn);
    desk.out.halves(&numbers).word(places[1] as u64).words(&bits).bytes(&cuts);
    for (k, record) in read.map_or(Vec::new(), |log| log.records).iter().enumerate() {
        numbers[k] = record.number;
        bits[5 * k..5 * k + 5].copy_from_slice(&record.bits);
        cuts[k] = record.cut as u8;
    }
    desk.out.halves(&numbers).words(&bits).bytes(&cuts).end(Kind::Log);
}

/// A record that may be new: its number about the last one's.
fn new(r: &mut Random, last: u32) -> Record {
    let (above, any) = (last.saturating_add(1 + r.below(3) as u32), r.word() as u32);
    let odd = r.of(&[last, last, last.saturating_sub(1), 0, u32::MAX, any]);
    let number = if r.once_in(3) { odd } else { above };
    let cut = if r.once_in(8) { r.of(&[2, 255, 256, u32::MAX]) } else { r.below(2) as u32 };
    Record { number, bits: std::array::from_fn(|_| bits(r)), cut }
}

/// An append to a log of any kind, with room for the record or without.
pub fn append(desk: &mut Desk, r: &mut Random, most: u64) {
    let mut log = log(r, most);
    let (used, at) = (log.len(), log.len() / RECORD * RECORD);
    let last = log[..at].chunks(RECORD).next_back().map_or(0, |b| u32::from_le_bytes([b[2], b[3], b[4], b[5]]));
    let (enough, more) = (at + RECORD, r.below(60) as usize);
    let len = r.of(&[enough, enough, enough, enough + more, enough + more, enough - 1, used]);
    log.resize(len.max(used), BYTE);
    let used = match r.below(16) {
        0 => r.of(&[log.len() as u64 + 1, u64::MAX, 1 << 63, u64::MAX - 46, 1 << 32]),
        1 => r.below(log.len() as u64 + 1),
        _ => used as u64,
    };
    let _ = append_of(desk, &log, used, &new(r, last));
}

/// The log after the append, and what it answers.
pub fn append_of(desk: &mut Desk, log: &[u8], used: u64, new: &Record) -> (Vec<u8>, Result<u64, u32>) {
    let mut after = log.to_vec();
    let due = reading::append(&mut after, used, new);
    let answer = answer(desk, due);
    desk.out.bytes(log).word(used).word(u64::from(new.number)).words(&new.bits).word(u64::from(new.cut));
    desk.out.answer(answer).bytes(&after).end(Kind::Append);
    (after, due)
}

/// A recorder's appends, one behind the other. A power cut leaves any prefix of one; the next goes over it. After each the
/// log is read.
pub fn recorder(desk: &mut Desk, r: &mut Random) {
    let mut log = vec![BYTE; (r.from_to(0, 6) * 47 + r.below(47)) as usize];
    let (mut used, mut last) = (0, r.of(&[0, 1, 65_535, u32::MAX - 3]));
    for _ in 0..r.from_to(1, 8) {
        let new = new(r, last);
        let (after, due) = append_of(desk, &log, used as u64, &new);
        append_to_end(desk, &log, used, &new, &after);
        let Ok(end) = due else { continue };
        let start = end as usize - RECORD;
        let reached = start + if r.once_in(2) { RECORD } else { r.below(47) as usize };
        log[start..reached].copy_from_slice(&after[start..reached]);
        // A longer rest from before stays behind a shorter one.
        used = used.max(reached);
        let count = used / RECORD;
        last = if reached == end as usize { new.number } else { last };
        read_of(desk, &log[..used], [count, 5 * count, count]);
    }
}

/// The same append where just the end of a sound log is lent, from its last whole record on: the same bytes are due.
fn append_to_end(desk: &mut Desk, log: &[u8], used: usize, new: &Record, after: &[u8]) {
    let from = (used / RECORD).saturating_sub(1) * RECORD;
    let (end, _) = append_of(desk, &log[from..], (used - from) as u64, new);
    if end != after[from..] {
        desk.tally.differs("an append to the end of a log, and to the whole of it");
    }
}
