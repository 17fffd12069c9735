//! The proved library beside the crate's portable Rust: the same inputs, one run, best of alternating rounds.
#[cfg(before)]
mod before;
mod library;
mod logs;
#[allow(dead_code)] // the oracle wants more of them
#[path = "../oracle/src/sizes.rs"]
mod sizes;
mod strips;

use std::hint::black_box;
use std::sync::Arc;
use std::time::Instant;

use library::*;
use num_rational::Rational32;
use scenes::_bench_internals::{estimate_importance_block_difference, estimate_intra_costs};
use v_frame::{
    chroma::ChromaSubsampling,
    frame::{Fed, Frame},
    plane::{Mark, Plane, PlaneGeometry},
};

type Scenes<T> = scenes::SceneChangeDetector<T>;
/// The crate's detector with all three measures given.
type Given = fed::SceneChangeDetector<u8>;

const ROUNDS: usize = 25;

/// The best time of one call in nanoseconds, of each side; rounds alternate.
fn best<const N: usize>(calls: u32, sides: [&mut dyn FnMut(); N]) -> [f64; N] {
    let mut best = [f64::MAX; N];
    let mut sides = sides;
    for _ in 0..ROUNDS {
        for (least, side) in best.iter_mut().zip(&mut sides) {
            *least = least.min(time(calls, *side));
        }
    }
    best
}

fn time(calls: u32, f: &mut dyn FnMut()) -> f64 {
    let start = Instant::now();
    for _ in 0..calls {
        f();
    }
    start.elapsed().as_nanos() as f64 / f64::from(calls)
}

/// A result that the compiler must make.
fn seen<R>(result: R) {
    black_box(result);
}

fn line(what: &str, size: &str, theirs: f64, ours: f64, more: &str) {
    println!("| {what} | {size} | {:.3} | {:.3} | {:.2} | {more} |", theirs / 1000.0, ours / 1000.0, theirs / ours);
}

fn samples<T: Sample>(count: usize, mut seed: u64) -> Vec<T> {
    let next = |_| {
        seed = seed.wrapping_mul(6_364_136_223_846_793_005).wrapping_add(1);
        T::of(seed)
    };
    (0..count).map(next).collect()
}

fn frame<T: Sample>(samples: &[T], width: usize, height: usize) -> Arc<Frame<T>> {
    let shape = PlaneGeometry { width, height, stride: width, origin: 0 };
    Arc::new(Frame::deep(Plane::over(samples.to_vec(), shape), T::DEPTH as u8, Fed::default()))
}

/// How often a plane of this size is measured in one round.
fn calls(width: usize, height: usize) -> u32 {
    (10_000_000 / (width * height)).max(1) as u32
}

/// The bytes of samples.
fn bytes<T: Sample>(list: &[T]) -> &[u8] {
    // SAFETY: a sample is one byte or two, and every byte of it may be read.
    unsafe { std::slice::from_raw_parts(list.as_ptr().cast(), size_of_val(list)) }
}

/// What a plain read of a plane takes: its words, added up.
fn read(list: &[u8]) -> u64 {
    list.chunks_exact(8).fold(0, |s, c| s.wrapping_add(u64::from_ne_bytes(c.try_into().unwrap())))
}

/// A rate in bytes, beside that of a plain read of the same.
fn beside_read(bytes: usize, ours: f64, plain: f64) -> String {
    let (rate, most) = (bytes as f64 / ours, bytes as f64 / plain);
    format!("{rate:.1} GB/s; a plain read {most:.1} GB/s; {:.2} of it", rate / most)
}

/// Two planes of one size, as the crate has them and as the library is lent them.
struct Pair<T: Sample> {
    size: String,
    calls: u32,
    bytes: usize,
    lists: [Vec<T>; 2],
    frames: [Arc<Frame<T>>; 2],
    width: usize,
    height: usize,
}

impl<T: Sample> Pair<T> {
    fn new(width: usize, height: usize) -> Self {
        let lists = [samples(width * height, 1), samples(width * height, 2)];
        let frames = [frame(&lists[0], width, height), frame(&lists[1], width, height)];
        let (size, bytes) = (format!("{width}×{height}"), 2 * size_of::<T>() * width * height);
        Pair { size, calls: calls(width, height), bytes, lists, frames, width, height }
    }

    /// A line of the table, with the sample's word.
    fn line(&self, what: &str, theirs: f64, ours: f64, more: &str) {
        line(&format!("{what}{}", T::SAID), &self.size, theirs, ours, more);
    }

    fn lent(&self, at: usize) -> Lent<'_, T> {
        Lent { samples: &self.lists[at], width: self.width, height: self.height }
    }

    fn difference(&self) {
        let ([first, second], one, two) = (&self.frames, self.lent(0), self.lent(1));
        assert_eq!(Scenes::<T>::door_difference(&first.y_plane, &second.y_plane) as i64, difference(&one, &two));
        let [theirs, ours, plain] = best(
            self.calls,
            [
                &mut || seen(Scenes::<T>::door_difference(black_box(&first.y_plane), black_box(&second.y_plane))),
                &mut || seen(difference(black_box(&one), black_box(&two))),
                &mut || seen(read(bytes(black_box(&self.lists[0]))) ^ read(bytes(black_box(&self.lists[1])))),
            ],
        );
        self.line("plane difference", theirs, ours, &beside_read(self.bytes, ours, plain));
    }

    fn importance(&self) {
        let ([first, second], one, two) = (&self.frames, self.lent(0), self.lent(1));
        assert_eq!(estimate_importance_block_difference(second, first), importance(&one, &two));
        let [theirs, ours] = best(
            self.calls,
            [
                &mut || seen(estimate_importance_block_difference(black_box(second), black_box(first))),
                &mut || seen(importance(black_box(&one), black_box(&two))),
            ],
        );
        self.line("importance", theirs, ours, &format!("{:.1} GB/s", self.bytes as f64 / ours));
    }

    fn intra(&self) {
        let (first, one) = (&self.frames[0], self.lent(0));
        let mut temp = first.y_plane.clone();
        let (mut work, mut costs) = (self.lists[1].clone(), vec![0; self.width * self.height / 64]);
        let due = estimate_intra_costs(&mut temp, first, T::DEPTH as usize);
        let count = intra_costs(&one, &mut work, &mut costs) as usize;
        assert_eq!(&due[..], &costs[..count]);
        let [theirs, ours] = best(
            (self.calls / 40).max(1),
            [
                &mut || seen(estimate_intra_costs(black_box(&mut temp), black_box(first), T::DEPTH as usize)),
                &mut || seen(intra_costs(black_box(&one), black_box(&mut work), black_box(&mut costs))),
            ],
        );
        self.line("intra costs", theirs, ours, &format!("{:.0} ns a block", ours / count as f64));
    }
}

/// A plane reduced by the factor that Fast mode has for its sides. The text of the crate's reduction is missing: it is the
/// oracle's plain Rust that runs beside the library here.
fn reduction<T: Sample>(width: usize, height: usize) {
    let factor = Scenes::<T>::door_scale(width, height, scenes::SceneDetectionSpeed::Fast);
    let (list, count) = (samples::<T>(width * height, 1), (width / factor) * (height / factor));
    let (from, one) = (frame(&list, width, height), Lent { samples: &list, width, height });
    let mut to = frame(&vec![T::default(); count], width / factor, height / factor).y_plane.clone();
    let mut reduced = vec![T::default(); count];
    Scenes::<T>::door_reduce(&from.y_plane, factor, &mut to);
    assert_eq!(reduce(&one, factor, &mut reduced), 0);
    assert_eq!(to.samples, reduced);
    let [theirs, ours, plain] = best(
        calls(width, height),
        [
            &mut || Scenes::<T>::door_reduce(black_box(&from.y_plane), factor, black_box(&mut to)),
            &mut || seen(reduce(black_box(&one), factor, black_box(&mut reduced))),
            &mut || seen(read(bytes(black_box(&list)))),
        ],
    );
    let more = beside_read(size_of_val(&list[..]), ours, plain) + "; beside the oracle's Rust";
    line(&format!("reduction{}", T::SAID), &format!("{width}×{height} by {factor}"), theirs, ours, &more);
}

/// A block that begins a line of the cache, so that the blocks of all sides lie alike.
#[repr(align(64))]
struct Block([i32; 64]);

/// The best times of two transforms, each with the copy of its input, which must give the same.
fn transforms(first: fn(&mut [i32]), second: fn(&mut [i32])) -> [f64; 2] {
    let entries: Vec<u8> = samples(64, 3);
    let source = Block(std::array::from_fn(|i| i32::from(entries[i]) - 128));
    let (mut a, mut b) = (Block(source.0), Block(source.0));
    first(&mut a.0);
    second(&mut b.0);
    assert_eq!(a.0, b.0);
    best(
        100_000,
        [
            &mut || {
                a.0 = black_box(&source).0;
                first(&mut black_box(&mut a).0);
            },
            &mut || {
                b.0 = black_box(&source).0;
                second(&mut black_box(&mut b).0);
            },
        ],
    )
}

/// The library's, on a block that it does not refuse.
fn accepted(block: &mut [i32]) {
    assert_eq!(hadamard8x8(block), 0);
}

fn transform() {
    let [theirs, ours] = transforms(|block| Scenes::<u8>::door_hadamard(block), accepted);
    line("transform", "8×8", theirs, ours, "with the copy of its input");
}

/// A film in Standard mode, lookahead 5, sets of 7, over and over.
fn step() {
    const CALLS: usize = 2000;
    let real = |i: usize| (i * 7919 % 1000) as f64;
    let fed = |i: usize| Fed { inter: real(i), importance: real(i + 3) / 100.0, threshold: real(i + 5) / 3.0 };
    let mark = |i: usize| Mark { frame: i as u64, difference: 0 };
    let frames: Vec<_> = (0..CALLS + 8).map(|i| Arc::new(Frame::of(Plane::marked(mark(i)), fed(i)))).collect();
    let list = |part: fn(&Fed) -> f64| -> Vec<f64> { frames.iter().map(|f| part(&f.fed)).collect() };
    let lists = [list(|f| f.inter), list(|f| f.importance), list(|f| f.threshold)];
    let theirs = || {
        let chroma = ChromaSubsampling::Monochrome;
        let speed = fed::SceneDetectionSpeed::Standard;
        let mut d = Given::new((64, 64), 8, Rational32(1, 600), chroma, 5, speed, 0, 1000);
        let (mut previous, mut cuts) = (0, 0);
        for n in 1..=CALLS {
            let set: [&Arc<Frame<u8>>; 7] = std::array::from_fn(|k| &black_box(&frames)[n - 1 + k]);
            if d.analyze_next_frame(&set, n, previous).0 {
                previous = n;
                cuts += 1;
            }
        }
        cuts
    };
    let ours = || {
        let mut d = Detector::fresh(64, 64, 5, 2, 0, 1000);
        let (mut previous, mut cuts) = (0, 0);
        for n in 1..=CALLS {
            let part = |list: usize| &black_box(&lists)[list][n..n + 6];
            if d.step(7, n as u64, previous, part(0), part(1), part(2)) & 1 == 1 {
                previous = n as u64;
                cuts += 1;
            }
        }
        cuts
    };
    assert_eq!(theirs(), ours());
    let film = best(1, [&mut || seen(theirs()), &mut || seen(ours())]);
    let [theirs, ours] = film.map(|whole| whole / CALLS as f64);
    line("step", "Standard, L 7", theirs, ours, "");
}

/// The measures of planes, and the reductions.
fn planes<T: Sample>() {
    for (width, height) in [(240, 180), (640, 480), (1920, 1080)] {
        let pair = Pair::<T>::new(width, height);
        pair.difference();
        pair.importance();
        pair.intra();
    }
    for (width, height) in [(640, 480), (1280, 720), (1920, 1080), (2560, 1440), (3840, 2160)] {
        reduction::<T>(width, height);
    }
}

fn main() {
    println!("| Part | Input | The crate, µs | The library, µs | Ratio | |");
    println!("|---|---|---|---|---|---|");
    planes::<u8>();
    planes::<u16>();
    transform();
    #[cfg(before)]
    before::transform();
    step();
    strips::all();
    logs::all();
    #[cfg(before)]
    before::same();
}
