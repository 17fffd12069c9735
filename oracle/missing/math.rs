//! Numbers: the place of the highest bit, and sizes rounded up to a power of two.

pub fn msb(x: i32) -> i32 {
    debug_assert!(x > 0);
    31 - x.leading_zeros() as i32
}

pub trait Fixed {
    fn align_power_of_two_and_shift(&self, n: usize) -> usize;
}

impl Fixed for usize {
    fn align_power_of_two_and_shift(&self, n: usize) -> usize {
        (self + (1 << n) - 1) >> n
    }
}
