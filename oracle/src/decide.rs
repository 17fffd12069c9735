//! Whole films for the command `brinepulley decide`, of either word: the film as a file, and what the command wrote about it.
use std::fs;
use std::io::{self, Write, stdin};

use crate::counted::decided_pairs;
use crate::films::{Film, score};
use crate::random::Random;
use crate::sample::Sample;
use crate::values::same;

fn film<T: Sample>(seed: &str) -> Film<T> {
    Film::draw(&mut Random::new(seed.parse().expect("a number")))
}

/// Writes film.y4m, its inter costs, and the command's words. A sample of 16 bits is two bytes, the low one first.
pub fn write<T: Sample>(seed: &str, folder: &str) -> io::Result<()> {
    let Film::<T> { settings: [width, height, depth, ahead, mode, min, max], frames } = film(seed);
    let name = if T::IS_DEEP { format!("mono{depth}") } else { "mono".to_string() };
    let mut y4m = fs::File::create(format!("{folder}/film.y4m"))?;
    writeln!(y4m, "YUV4MPEG2 W{width} H{height} F1:600 Ip A1:1 C{name}")?;
    for f in &frames {
        y4m.write_all(b"FRAME\n")?;
        for row in f.y_plane.rows() {
            let bytes = |s: &T| s.number().to_le_bytes().into_iter().take(size_of::<T>());
            y4m.write_all(&row.iter().flat_map(bytes).collect::<Vec<u8>>())?;
        }
    }
    let costs: Vec<String> = frames.iter().skip(1).map(|f| format!("{:e}\n", f.fed.inter)).collect();
    fs::write(format!("{folder}/film.inter"), costs.concat())?;
    let name = ["none", "fast", "standard"][mode as usize];
    let inter = if mode == 2 { " --inter film.inter" } else { "" };
    let words = format!("decide film.y4m --csv --mode {name} --lookahead {ahead} --min {min} --max {max}{inter}\n");
    fs::write(format!("{folder}/film.words"), words)
}

/// What a line should hold: cut, score, release number; whether a large change is no cut, where that is known; and the score's pair.
#[derive(Debug)]
struct Due {
    cut: bool,
    score: Option<[f64; 5]>,
    release: usize,
    large: Option<bool>,
    pair: Option<u64>,
}

/// Whether the lines on the standard input are what the crate finds.
pub fn compare<T: Sample>(seed: &str) -> bool {
    let film = film::<T>(seed);
    let Some(found) = film.found() else { return false };
    let lines: Vec<String> = stdin().lines().map_while(Result::ok).skip(1).collect();
    let count = film.frames.len();
    let pairs = decided_pairs(&film.settings, count);
    let mut release = 0;
    let mut good = lines.len() == count;
    // Else a score may be another pair's, and the mark goes by the frame's own.
    let own = film.settings[3] >= 5 && count >= 7;
    for (n, line) in lines.iter().enumerate().take(count) {
        let [.., ahead, mode, _, _] = film.settings;
        let set = (count + 1 - n).min(ahead as usize + 2);
        // The first call is that of frame 1, so the number starts as 1, less one. Other calls keep it.
        if n > 0 && set >= 7 && ahead >= 5 && mode != 0 {
            release = n.saturating_sub(9).max(1) - 1;
        }
        let (cut, score) = (found.scene_changes.contains(&n), found.scores.get(&n).map(score));
        let large = score.filter(|_| own).map(|[inter, .., threshold]| !cut && inter >= threshold);
        let due = Due { cut, score, release, large, pair: pairs[n] };
        if !due.is(n, line) {
            println!("seed {seed}, frame {n}: {due:?} is due; the command wrote {line}");
            good = false;
        }
    }
    good
}

impl Due {
    /// Frame, cut, five numbers, release number, large, pair.
    fn is(&self, n: usize, line: &str) -> bool {
        let parts: Vec<&str> = line.split(',').collect();
        let head = format!("{n},{}", i32::from(self.cut));
        if parts.len() != 10 || parts[..2].join(",") != head || parts[7] != self.release.to_string() {
            return false;
        }
        if self.large.is_some_and(|is| parts[8] != i32::from(is).to_string()) {
            return false;
        }
        if parts[9] != self.pair.map_or(String::new(), |pair| pair.to_string()) {
            return false;
        }
        match self.score {
            None => parts[2..7].iter().all(|p| p.is_empty()),
            Some(s) => s.iter().zip(&parts[2..7]).all(|(x, p)| p.parse().is_ok_and(|y: f64| same(*x, y))),
        }
    }
}
