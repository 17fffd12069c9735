//! Cases from a seed with the crate's answers, as a stream of words on the standard output.
//!   oracle SEED COUNT       COUNT detector calls that the crate answers, COUNT / 10 measures of each kind at least; and as many
//!                           again of 10 and 12 bits; COUNT / 20 films that come in strips, of either word
//!   oracle list SEED            the fixed list, as text
//!   oracle film SEED FOLDER     a film for the command `brinepulley decide`, with the words to give it
//!   oracle decided SEED         compares what the command wrote, from the standard input, with what the crate finds
//!   oracle film16, decided16    the same with a film of 10 or 12 bits
mod attempt;
mod block_edges;
mod counted;
mod damage;
mod decide;
mod deep_cases;
mod desk;
mod detector_cases;
mod edges;
mod films;
mod kind;
mod list;
mod list_cases;
mod log_cases;
mod log_edges;
mod log_reading;
mod measures_reading;
mod memory;
mod pair_cases;
mod pair_edges;
mod paper;
mod plane_cases;
mod random;
mod reading;
mod reduce_cases;
mod run;
mod sample;
mod sizes;
mod state;
mod state_cases;
mod stream;
mod strips_calls;
mod strips_cases;
mod strips_edges;
mod strips_reading;
mod tally;
mod values;
mod words;

use desk::Desk;
use detector_cases::Depths;
use random::Random;
use sample::Sample;
use stream::Stream;
use tally::Tally;

/// The most records of a log.
const LOG_MOST: u64 = 40;

fn main() {
    let argument = |i: usize| std::env::args().nth(i).unwrap_or_default();
    match argument(1).as_str() {
        "list" => return list(&argument(2)),
        "film" => return decide::write::<u8>(&argument(2), &argument(3)).expect("a folder that can be written"),
        "film16" => return decide::write::<u16>(&argument(2), &argument(3)).expect("a folder that can be written"),
        "decided" => std::process::exit(i32::from(!decide::compare::<u8>(&argument(2)))),
        "decided16" => std::process::exit(i32::from(!decide::compare::<u16>(&argument(2)))),
        _ => (),
    }
    let number = |i: usize, or: u64| std::env::args().nth(i).map_or(or, |s| s.parse().expect("a number"));
    let (seed, count) = (number(1, 1), number(2, 10_000));
    attempt::prepare();
    let (mut out, mut tally, mut r) = (Stream::new(), Tally::default(), Random::new(seed));
    let mut desk = Desk { out: &mut out, tally: &mut tally };
    edges::all(&mut desk);
    edges::large(&mut desk);
    for _ in 0..count / 5 + 20 {
        list_cases::scale(&mut desk, &mut r);
        plane_cases::pair::<u8>(&mut desk, &mut r);
        plane_cases::intra::<u8>(&mut desk, &mut r);
        list_cases::threshold(&mut desk, &mut r);
        list_cases::hadamard(&mut desk, &mut r, 4);
        list_cases::hadamard(&mut desk, &mut r, 8);
        list_cases::satd::<u8>(&mut desk, &mut r);
    }
    for _ in 0..count / 2000 + 1 {
        films::film::<u8>(&mut desk, &mut r);
    }
    while desk.tally.calls < count {
        detector_cases::run(&mut desk, &mut r, Depths::Byte);
    }
    logs(&mut desk, &mut r, count / 10 + 20);
    reductions::<u8>(&mut desk, &mut r, count / 5 + 20);
    let mut deep_tally = Tally::default();
    deep(&mut Desk { out: &mut out, tally: &mut deep_tally }, &mut r, count);
    strips::<u8>(&mut Desk { out: &mut out, tally: &mut tally }, &mut r, count);
    strips::<u16>(&mut Desk { out: &mut out, tally: &mut deep_tally }, &mut r, count);
    finish(&mut out, seed, &[("8 bits", &tally), ("10 and 12 bits", &deep_tally)]);
}

/// The logs come behind the detector: the cases above are the same with them and without.
fn logs(desk: &mut Desk, r: &mut Random, count: u64) {
    log_edges::all(desk);
    log_edges::large(desk);
    for _ in 0..count {
        log_cases::read(desk, r, LOG_MOST);
        log_cases::append(desk, r, LOG_MOST);
    }
    for _ in 0..count / 20 {
        log_cases::recorder(desk, r);
    }
}

/// The reductions come behind the logs, for the same reason.
fn reductions<T: Sample>(desk: &mut Desk, r: &mut Random, count: u64) {
    for &depth in T::DEPTHS {
        reduce_cases::edges::<T>(desk, depth);
        reduce_cases::orders::<T>(desk, depth);
        reduce_cases::large::<T>(desk, r, depth);
    }
    for _ in 0..count {
        reduce_cases::reduce::<T>(desk, r);
    }
}

/// Samples of 16 bits, and detectors of 10 and 12, come behind these: as many cases as of 8.
fn deep(desk: &mut Desk, r: &mut Random, count: u64) {
    deep_cases::edges(desk);
    edges::thresholds(desk);
    edges::large_deep(desk);
    for &depth in u16::DEPTHS {
        edges::measures::<u16>(desk, depth);
    }
    for _ in 0..count / 5 + 20 {
        plane_cases::pair::<u16>(desk, r);
        plane_cases::intra::<u16>(desk, r);
        list_cases::satd::<u16>(desk, r);
    }
    for _ in 0..count / 2000 + 1 {
        films::film::<u16>(desk, r);
    }
    while desk.tally.calls < count {
        detector_cases::run(desk, r, Depths::Deep);
    }
    reductions::<u16>(desk, r, count / 5 + 20);
}

/// Strips come behind all of these, of either word.
fn strips<T: Sample>(desk: &mut Desk, r: &mut Random, count: u64) {
    strips_edges::all::<T>(desk, r);
    strips_edges::large::<T>(desk);
    for _ in 0..count / 20 + 20 {
        let sides = strips_cases::sides(r);
        strips_cases::film::<T>(desk, r, sides);
        strips_calls::start(desk, r);
        strips_calls::end(desk, r, sides);
    }
    for _ in 0..count / 5 + 20 {
        let sides = strips_cases::sides(r);
        strips_calls::add::<T>(desk, r, sides);
    }
}

fn list(seed: &str) {
    let seed = seed.parse().expect("a seed");
    attempt::prepare();
    let (mut out, mut tally) = (Stream::listed(), Tally::default());
    list::all(&mut Desk { out: &mut out, tally: &mut tally }, &mut Random::new(seed));
    finish(&mut out, seed, &[("the list", &tally)]);
}

fn finish(out: &mut Stream, seed: u64, tallies: &[(&str, &Tally)]) {
    out.finish();
    for (of, tally) in tallies {
        tally.print(seed, of);
    }
    if tallies.iter().any(|(_, tally)| tally.different != 0) {
        std::process::exit(1);
    }
}
