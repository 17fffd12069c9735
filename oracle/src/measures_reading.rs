//! Document 01's measures as a program, with document 02's deep camera and its refusal of planes without a block: which refusal
//! is due, and the measures in exact numbers.
use crate::sample::Sample;

/// A plane as it is lent.
#[derive(Clone)]
pub struct Lent<T> {
    pub samples: Vec<T>,
    pub width: u64,
    pub height: u64,
    pub stride: u64,
    pub origin: u64,
}

/// 5: "a depth other than 8, 10, 12, or one that doesn't suit the plane's word". 8 bits suit a byte, 10 and 12 two.
pub fn suits<T>(depth: u64) -> bool {
    match size_of::<T>() {
        1 => depth == 8,
        _ => depth == 10 || depth == 12,
    }
}

/// 19: "a plane with no whole 8×8 block".
pub fn lacks_block(width: u64, height: u64) -> bool {
    width < 8 || height < 8
}

/// "128 times 2 to the power depth − 8".
fn flat_sample(depth: u64) -> u64 {
    128 << (depth - 8)
}

impl<T: Sample> Lent<T> {
    pub fn place(&self, x: u64, y: u64) -> usize {
        (self.origin + y * self.stride + x) as usize
    }
    pub fn sample(&self, x: u64, y: u64) -> u64 {
        self.samples[self.place(x, y)].number()
    }
    pub fn blocks(&self) -> u64 {
        (self.width / 8) * (self.height / 8)
    }
    fn fault(&self) -> u32 {
        let side = |n: u64| n == 0 || n > 8192;
        if side(self.width) || side(self.height) || self.stride < self.width {
            return 1;
        }
        let (origin, stride) = (u128::from(self.origin), u128::from(self.stride));
        let end = origin + u128::from(self.height - 1) * stride + u128::from(self.width);
        if end > self.samples.len() as u128 { 2 } else { 0 }
    }
    /// 16: "a visible sample at or above 2 to the depth".
    pub fn exceeds(&self, depth: u64) -> bool {
        let limit = 1 << depth;
        (0..self.height).any(|y| (0..self.width).any(|x| self.sample(x, y) >= limit))
    }
}

/// 1 and 2 of the first plane, then of the second.
fn each_fault<T: Sample>(a: &Lent<T>, b: &Lent<T>) -> u32 {
    for plane in [a, b] {
        let fault = plane.fault();
        if fault != 0 {
            return fault;
        }
    }
    0
}

/// What is tested before any sample is looked at.
fn shapes_fault<T: Sample>(depth: u64, a: &Lent<T>, b: &Lent<T>) -> u32 {
    if !suits::<T>(depth) {
        return 5;
    }
    match each_fault(a, b) {
        0 if (a.width, a.height) != (b.width, b.height) => 3,
        fault => fault,
    }
}

/// The same of what is measured by blocks: 19 is "tested after 3".
fn blocks_fault<T: Sample>(depth: u64, a: &Lent<T>, b: &Lent<T>) -> u32 {
    match shapes_fault(depth, a, b) {
        0 if lacks_block(a.width, a.height) => 19,
        fault => fault,
    }
}

/// 16 of either plane comes last.
fn or_large<T: Sample>(fault: u32, depth: u64, a: &Lent<T>, b: &Lent<T>) -> u32 {
    match fault {
        0 if a.exceeds(depth) || b.exceeds(depth) => 16,
        fault => fault,
    }
}

/// Of the plane difference and of delta, which planes without a block have too.
pub fn difference_fault<T: Sample>(depth: u64, a: &Lent<T>, b: &Lent<T>) -> u32 {
    or_large(shapes_fault(depth, a, b), depth, a, b)
}

/// Of the importance and of its total.
pub fn importance_fault<T: Sample>(depth: u64, a: &Lent<T>, b: &Lent<T>) -> u32 {
    or_large(blocks_fault(depth, a, b), depth, a, b)
}

/// 4 comes after 19, and 16 after 4, "work plane aside".
pub fn intra_fault<T: Sample>(depth: u64, a: &Lent<T>, work: &Lent<T>, costs: usize) -> u32 {
    match blocks_fault(depth, a, work) {
        0 if (costs as u64) < a.blocks() => 4,
        0 if a.exceeds(depth) => 16,
        fault => fault,
    }
}

/// Not document 01's: the header's words. The plane to reduce, and the one that takes it reduced.
pub fn reduce_fault<T: Sample>(depth: u64, factor: u64, a: &Lent<T>, reduced: &Lent<T>) -> u32 {
    if ![1, 2, 4, 8, 16, 32].contains(&factor) {
        return 6;
    }
    if !suits::<T>(depth) {
        return 5;
    }
    if a.width < factor || a.height < factor {
        return 1;
    }
    let sides = (a.width / factor, a.height / factor);
    match each_fault(a, reduced) {
        0 if (reduced.width, reduced.height) != sides => 3,
        0 if a.exceeds(depth) => 16,
        fault => fault,
    }
}

/// The samples of the lent plane afterwards: of each whole square the sum and half its number of samples, over that number.
pub fn reduce<T: Sample>(factor: u64, a: &Lent<T>, reduced: &Lent<T>) -> Vec<T> {
    let (mut after, number) = (reduced.samples.clone(), factor * factor);
    for y in 0..a.height / factor {
        for x in 0..a.width / factor {
            let sample = |i: u64| a.sample(x * factor + i % factor, y * factor + i / factor);
            let sum: u64 = (0..number).map(sample).sum();
            after[reduced.place(x, y)] = T::of((sum + number / 2) / number);
        }
    }
    after
}

pub fn difference<T: Sample>(a: &Lent<T>, b: &Lent<T>) -> u64 {
    let mut sum = 0;
    for y in 0..a.height {
        for x in 0..a.width {
            sum += a.sample(x, y).abs_diff(b.sample(x, y));
        }
    }
    sum
}

/// The rounded mean of the whole block with its first sample at (x, y).
fn mean<T: Sample>(p: &Lent<T>, x: u64, y: u64) -> u64 {
    let mut sum = 0;
    for row in 0..8 {
        for column in 0..8 {
            sum += p.sample(x + column, y + row);
        }
    }
    (sum + 32) / 64
}

pub fn importance_total<T: Sample>(a: &Lent<T>, b: &Lent<T>) -> u64 {
    let mut total = 0;
    for y in (0..a.height / 8).map(|y| y * 8) {
        for x in (0..a.width / 8).map(|x| x * 8) {
            total += mean(a, x, y).abs_diff(mean(b, x, y));
        }
    }
    total
}

pub fn quotient(total: u64, count: u64) -> f64 {
    total as f64 / count as f64
}

/// The transform of one side: output k is the sum of input j times −1 to the number of ones common to k and j.
pub fn hadamard(list: &mut [i32], side: usize) {
    let sign = |k: usize, j: usize| if (k & j).count_ones() % 2 == 0 { 1i64 } else { -1 };
    let old: Vec<i64> = list.iter().map(|&x| i64::from(x)).collect();
    for v in 0..side {
        for u in 0..side {
            let mut sum = 0;
            for y in 0..side {
                for x in 0..side {
                    sum += sign(v, y) * sign(u, x) * old[y * side + x];
                }
            }
            list[v * side + u] = sum as i32;
        }
    }
}

pub fn hadamard_fault(list: &[i32], side: usize) -> u32 {
    if list.len() != side * side {
        return 2;
    }
    let beyond = |&x: &i32| !(-65_535..=65_535).contains(&x);
    if list.iter().any(beyond) { 10 } else { 0 }
}

pub fn satd<T: Sample>(a: &[T], b: &[T]) -> i64 {
    if a.len() != 64 || b.len() != 64 {
        return -2;
    }
    let mut list: Vec<i32> = a.iter().zip(b).map(|(&x, &y)| x.number() as i32 - y.number() as i32).collect();
    hadamard(&mut list, 8);
    let sum: i64 = list.iter().map(|x| i64::from(x.unsigned_abs())).sum();
    (sum + 4) / 8
}

/// The costs in row order, and the work plane after them.
pub fn intra<T: Sample>(depth: u64, a: &Lent<T>, work: &Lent<T>) -> (Vec<u32>, Vec<T>) {
    let (mut costs, mut after) = (Vec::new(), work.samples.clone());
    let flat = T::of(flat_sample(depth));
    for y in (0..a.height / 8).map(|y| y * 8) {
        for x in (0..a.width / 8).map(|x| x * 8) {
            let block: Vec<T> = (0..64).map(|i| a.samples[a.place(x + i % 8, y + i / 8)]).collect();
            costs.push(satd(&block, &[flat; 64]) as u32);
            for row in 0..8 {
                let at = work.place(x, y + row);
                after[at..at + 8].fill(flat);
            }
        }
    }
    (costs, after)
}

/// A count of 0 is that of a plane without a block, whatever the list is.
pub fn threshold(costs: &[u32], count: u64) -> Result<f64, u32> {
    if count == 0 {
        return Err(19);
    }
    if (costs.len() as u64) < count {
        return Err(4);
    }
    let sum: u64 = costs[..count as usize].iter().map(|&c| u64::from(c)).sum();
    Ok(quotient(sum, count) * (1.0 - 0.7))
}
