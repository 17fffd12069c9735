//! The log of scores: scan and read of long ones beside a plain read of the same bytes, and one append. The crate has no log.
use std::hint::black_box;

use crate::library::{RECORD, log_append, log_read, log_scan};
use crate::{best, read, seen, time};

/// Records one behind the other, numbered from 0.
fn log(count: usize) -> Vec<u8> {
    let mut log = vec![0; count * RECORD];
    for k in 0..count {
        let score = [0, 1, 2, 3, 4].map(|part| (k * 5 + part) as f64 / 7.0);
        let used = log_append(&mut log[k.saturating_sub(1) * RECORD..], RECORD * k.min(1), k as u32, score, k as u32 % 2);
        assert_eq!(used as usize, RECORD * (k.min(1) + 1));
    }
    log
}

fn line(what: &str, bytes: usize, ours: f64, plain: f64) {
    let (rate, most) = (bytes as f64 / ours, bytes as f64 / plain);
    let size = bytes as f64 / 1e6;
    println!("| {what} | {size:.0} MB | {:.3} | {rate:.2} | {most:.2} | {:.2} |", ours / 1e6, rate / most);
}

/// A log of about so many bytes.
fn long(bytes: usize) {
    let count = bytes / RECORD;
    let log = log(count);
    let (mut numbers, mut bits, mut cuts) = (vec![0; count], vec![0; 5 * count], vec![0; count]);
    assert_eq!(log_scan(&log), (count as i64, 0));
    assert_eq!(log_read(&log, &mut numbers, &mut bits, &mut cuts), (count as i64, 0));
    let calls = (10_000_000 / bytes).max(1) as u32;
    let [scanned, listed, plain] = best(
        calls,
        [
            &mut || seen(log_scan(black_box(&log))),
            &mut || seen(log_read(black_box(&log), &mut numbers, &mut bits, &mut cuts)),
            &mut || seen(read(black_box(&log))),
        ],
    );
    line("scan", log.len(), scanned, plain);
    line("read", log.len(), listed, plain);
}

/// The append on a log's end: one whole record and a rest. The median of many.
fn append() {
    const ROUNDS: usize = 1001;
    const CALLS: u32 = 1000;
    let mut end = [log(1), vec![0; RECORD]].concat();
    let mut append = || log_append(black_box(&mut end), RECORD + 20, 1, black_box([1.5, 2.5, 3.5, 4.5, 5.5]), 1);
    let mut once = || assert_eq!(append(), 2 * RECORD as i64);
    let mut times: Vec<f64> = (0..ROUNDS).map(|_| time(CALLS, &mut once)).collect();
    times.sort_by(f64::total_cmp);
    let median = times[ROUNDS / 2];
    println!("\nAppend behind one whole record and a rest: {median:.1} ns, the median of {ROUNDS} rounds of {CALLS} calls");
}

pub fn all() {
    println!("\n| Log | Bytes | The library, ms | GB/s | A plain read, GB/s | Share of it |");
    println!("|---|---|---|---|---|---|");
    [1_000_000, 10_000_000, 100_000_000].into_iter().for_each(long);
    append();
}
