//! Logs at the edges, whatever the seed draws: values, each refusal by itself, and two faults of which the first is due.
use crate::desk::Desk;
use crate::log_cases::{append_of, bytes, read_of};
use crate::log_reading::{self as reading, MARK, RECORD, Record};

/// NaNs of other patterns than the one that is written, an infinity and −0.0.
const SCORES: [u64; 5] = [0xfff8 << 48, (0x7ff0 << 48) | 1, u64::MAX, 0xfff0 << 48, 1 << 63];

fn record(number: u32) -> Vec<u8> {
    bytes(MARK, number, SCORES, 1)
}

fn numbered(numbers: &[u32]) -> Vec<u8> {
    numbers.iter().flat_map(|&n| record(n)).collect()
}

/// The log with other bytes at some places.
fn changed(mut log: Vec<u8>, changes: &[(usize, u8)]) -> Vec<u8> {
    changes.iter().for_each(|&(at, byte)| log[at] = byte);
    log
}

/// The reading is asked all the same, so that a mutant of it makes a list, which is wrong here.
fn is_due(desk: &mut Desk, is_due: bool) {
    if !is_due {
        desk.tally.differs("another answer of the log is due");
    }
}

fn read(desk: &mut Desk, log: &[u8], due: Result<usize, u32>) {
    let count = log.len() / RECORD;
    let places = [count, 5 * count, count];
    is_due(desk, reading::read(log, places).map(|all| all.records.len()) == due);
    read_of(desk, log, places);
}

fn append(desk: &mut Desk, log: &[u8], used: u64, number: u32, cut: u32, due: Result<u64, u32>) {
    let (_, answer) = append_of(desk, log, used, &Record { number, bits: SCORES, cut });
    is_due(desk, answer == due);
}

fn reads(desk: &mut Desk) {
    read(desk, &[], Ok(0));
    read(desk, &[0xff; 46], Ok(0));
    read(desk, &numbered(&[0]), Ok(1));
    // By its low byte alone the second number would fall, by its high byte alone it would be equal; with a sign the fourth
    // would fall.
    read(desk, &numbered(&[255, 256, (1 << 31) - 1, 1 << 31, u32::MAX]), Ok(5));
    read(desk, &[numbered(&[7]), record(7)[..46].to_vec()].concat(), Ok(1));
    for wrong in [[7, 7], [7, 6], [256, 255], [u32::MAX, 0]] {
        read(desk, &numbered(&wrong), Err(14));
    }
    for (at, byte) in [(0, 0x43), (1, 0x53), (47, 0), (48, 0)] {
        read(desk, &changed(numbered(&[1, 2]), &[(at, byte)]), Err(12));
    }
    for (at, byte) in [(46, 2), (93, 255)] {
        read(desk, &changed(numbered(&[1, 2]), &[(at, byte)]), Err(13));
    }
}

/// 12, 13, 14 in a record, the earliest record at fault first, and then 15.
fn orders_of_reads(desk: &mut Desk) {
    read(desk, &changed(numbered(&[5, 5]), &[(47, 0), (93, 2)]), Err(12));
    read(desk, &changed(numbered(&[5, 5]), &[(93, 2)]), Err(13));
    read(desk, &changed(numbered(&[5, 5, 9]), &[(94, 0)]), Err(14));
    read(desk, &changed(numbered(&[5, 6]), &[(46, 2), (47, 0)]), Err(13));
    let (sound, wrong) = (numbered(&[5, 6]), changed(numbered(&[5, 6]), &[(93, 2)]));
    for places in [[1, 10, 2], [2, 9, 2], [2, 10, 1], [0, 0, 0]] {
        for (log, due) in [(&sound, 15), (&wrong, 13)] {
            is_due(desk, reading::read(log, places).is_err_and(|fault| fault == due));
            read_of(desk, log, places);
        }
    }
}

/// 15 where the used length is above the log's, 12, 13, 14 of the old records, 13 and 14 of the new one, 15.
fn appends(desk: &mut Desk) {
    let room = |log: &[u8], len: usize| [log, &vec![0x5a; len]].concat();
    append(desk, &room(&[], 47), 0, 0, 0, Ok(47));
    append(desk, &room(&[], 46), 0, 0, 0, Err(15));
    let log = numbered(&[7]);
    append(desk, &room(&log, 48), 47, 8, 1, Ok(94));
    append(desk, &room(&log, 47), 93, u32::MAX, 1, Ok(94));
    append(desk, &room(&log, 46), 93, 8, 1, Err(15));
    append(desk, &room(&log, 46), 47, 7, 1, Err(14));
    append(desk, &room(&log, 46), 47, 6, 2, Err(13));
    append(desk, &room(&log, 47), 47, 8, 256, Err(13));
    let wrong = changed(log, &[(1, 0)]);
    append(desk, &room(&wrong, 47), 47, 8, 2, Err(12));
    append(desk, &room(&wrong, 47), 95, 8, 2, Err(15));
    append(desk, &room(&wrong, 47), u64::MAX, 8, 0, Err(15));
    append(desk, &room(&numbered(&[7, 7]), 47), 94, 8, 2, Err(14));
}

/// More records than 16 bits count, and one more behind them.
pub fn large(desk: &mut Desk) {
    let log: Vec<u8> = (0..70_000).flat_map(record).collect();
    read(desk, &log, Ok(70_000));
    let used = log.len() as u64;
    append(desk, &[log, vec![0; 47]].concat(), used, 70_000, 0, Ok(used + 47));
}

pub fn all(desk: &mut Desk) {
    reads(desk);
    orders_of_reads(desk);
    appends(desk);
}
