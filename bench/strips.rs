//! Two frames that come in strips, of 8 rows and of 5, beside the three measures of the whole planes: the library's own, in the
//! same rounds. The crate has no strips.
use std::hint::black_box;

use crate::library::{Carry, Lent, Sample, difference, importance_total, intra_costs};
use crate::{Pair, best, seen};

/// The rows of a strip: as many as a row of blocks has, and fewer, so that rows are held between two calls.
const ROWS: [usize; 2] = [8, 5];

/// Blocks, difference and importance total of the whole planes; the second one's costs.
fn whole<T: Sample>(planes: &[Lent<T>; 2], work: &mut [T], costs: &mut [u32]) -> (i64, u64, u64) {
    let [one, two] = planes;
    let (sum, total) = (difference(one, two), importance_total(one, two));
    (intra_costs(two, work, costs), sum as u64, total as u64)
}

/// Rows of a plane as a strip: the plane's own memory.
fn part<'a, T>(of: &Lent<'a, T>, from: usize, rows: usize) -> Lent<'a, T> {
    Lent { samples: &of.samples[from * of.width..(from + rows) * of.width], width: of.width, height: rows }
}

/// The same from strips of so many rows.
fn strips<T: Sample>(planes: &[Lent<T>; 2], rows: usize, room: &mut [T], costs: &mut [u32]) -> (i64, u64, u64) {
    let [one, two] = planes;
    let mut carry = Carry::start::<T>(one.width, one.height);
    for from in (0..one.height).step_by(rows) {
        let rows = rows.min(one.height - from);
        let come = carry.add(&part(one, from, rows), &part(two, from, rows), room, costs);
        assert_eq!(come as usize, from + rows);
    }
    carry.end()
}

fn pair<T: Sample>(width: usize, height: usize) {
    let pair = Pair::<T>::new(width, height);
    let planes = [pair.lent(0), pair.lent(1)];
    let (mut work, mut room) = (pair.lists[0].clone(), vec![T::default(); 16 * width]);
    let mut costs = [(); 3].map(|()| vec![0; (width / 8) * (height / 8)]);
    let [of_whole, of_eight, of_five] = &mut costs;
    let due = whole(&planes, &mut work, of_whole);
    assert_eq!(strips(&planes, ROWS[0], &mut room, of_eight), due);
    assert_eq!(strips(&planes, ROWS[1], &mut room, of_five), due);
    assert!(of_whole == of_eight && of_whole == of_five);
    let mut other = room.clone();
    let times = best(
        (pair.calls / 40).max(1),
        [
            &mut || seen(whole(black_box(&planes), &mut work, of_whole)),
            &mut || seen(strips(black_box(&planes), ROWS[0], &mut room, of_eight)),
            &mut || seen(strips(black_box(&planes), ROWS[1], &mut other, of_five)),
        ],
    );
    for (rows, time) in ROWS.iter().zip(&times[1..]) {
        let (whole, time) = (times[0] / 1000.0, time / 1000.0);
        println!("| strips of {rows} rows{} | {} | {whole:.3} | {time:.3} | {:.2} |", T::SAID, pair.size, whole / time);
    }
}

pub fn all() {
    println!("\n| Strips | Input | Whole planes, µs | Strips, µs | Ratio |");
    println!("|---|---|---|---|---|");
    for (width, height) in [(240, 180), (640, 480), (1920, 1080)] {
        pair::<u8>(width, height);
        pair::<u16>(width, height);
    }
}
