//! The numbers that films are made of: ties, both zeros, thresholds on the edge, numbers near the largest.
use crate::random::Random;

const TINY: f64 = 5e-324;

/// One way of choosing inter costs for a whole film.
#[derive(Clone, Copy)]
pub struct Taste(u64);

impl Taste {
    pub fn new(r: &mut Random) -> Self {
        Taste(r.below(8))
    }

    /// An inter cost: finite, not below 0.
    pub fn inter(self, r: &mut Random) -> f64 {
        match self.0 {
            0 => r.below(4) as f64,
            1 => r.of(&[0.0, -0.0]),
            2 => r.of(&[0.0, -0.0, 1.0, TINY]),
            3 => r.part() * 100.0,
            4 => r.of(&[f64::MAX, f64::MAX.next_down(), f64::MAX / 2.0, 1e308, 0.0]),
            5 => r.of(&[0.1, 0.2, 0.3, 0.30000000000000004, 0.7]),
            6 => if r.once_in(6) { 1000.0 } else { r.part() * 10.0 },
            _ => Taste(r.below(7)).inter(r),
        }
    }

    /// A threshold: finite and not below 0, as an importance is.
    pub fn threshold(self, r: &mut Random) -> f64 {
        if r.once_in(8) {
            return r.of(&[0.0, -0.0, TINY, f64::MAX]);
        }
        match self.0 {
            6 => r.of(&[10.0, 100.0, 5.0]),
            _ => Taste(r.of(&[self.0, 0])).inter(r),
        }
    }

    pub fn importance(self, r: &mut Random, depth: u64) -> f64 {
        let edge = 7.0 * depth as f64 / 8.0;
        match r.below(5) {
            0 | 1 => r.of(&[edge, edge.next_up(), 50.0]),
            2 => r.of(&[edge.next_down(), 0.0, -0.0, 6.0, TINY]),
            3 => r.of(&[f64::MAX, edge]),
            _ => r.part() * 2.0 * edge,
        }
    }

    /// A difference of two planes of so many samples, which Fast mode divides by their number.
    pub fn difference(self, r: &mut Random, depth: u64, pixels: u64) -> u64 {
        let times = |n: u64| n * depth * pixels / 8;
        match r.below(8) {
            0 => times(18),
            1 => times(18) - 1,
            2 => times(18) + 1,
            3 => times(7) - r.below(2),
            4 => 0,
            5 => r.of(&[u64::MAX, 1 << 53, (1 << 53) + 1, 1]),
            _ => r.below(times(40)),
        }
    }
}

/// Any float at all, for the parts of a state that nothing bounds.
pub fn any_real(r: &mut Random) -> f64 {
    match r.below(4) {
        0 => r.of(&[f64::NAN, -f64::NAN, f64::INFINITY, f64::NEG_INFINITY, f64::MAX, -f64::MAX]),
        1 => r.of(&[0.0, -0.0, 7.0, 7f64.next_down(), TINY, -TINY, 18.0]),
        2 => r.below(5) as f64 - 1.0,
        _ => f64::from_bits(r.word()),
    }
}

/// What refusal 10 forbids, in each list alike.
pub fn forbidden(r: &mut Random) -> f64 {
    r.of(&[f64::NAN, f64::INFINITY, f64::NEG_INFINITY, -1.0, -TINY, -f64::MAX])
}

/// A number, or one time in eight a NaN: a state from before NaNs were refused in every list may hold it.
pub fn or_nan(x: f64, r: &mut Random) -> f64 {
    if r.once_in(8) { f64::NAN } else { x }
}

pub fn same(a: f64, b: f64) -> bool {
    a.to_bits() == b.to_bits() || (a.is_nan() && b.is_nan())
}
