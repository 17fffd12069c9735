//! A record of the stream taken apart again.

const NAN: u64 = 0x7ff8 << 48;

/// The words of a record of the stream, one after the other.
pub struct Reader<'a>(pub &'a [u64]);

impl Reader<'_> {
    pub fn word(&mut self) -> u64 {
        self.words(1)[0]
    }

    pub fn words(&mut self, count: usize) -> Vec<u64> {
        let (front, rest) = self.0.split_at(count);
        self.0 = rest;
        front.to_vec()
    }

    /// Words with their number before them.
    pub fn list(&mut self) -> Vec<u64> {
        let count = self.word() as usize;
        self.words(count)
    }

    pub fn reals(&mut self) -> Vec<u64> {
        self.list().into_iter().map(bits).collect()
    }

    /// Bytes, each as a word.
    pub fn bytes(&mut self) -> Vec<u64> {
        let count = self.word() as usize;
        let all = self.words(count.div_ceil(8)).into_iter().flat_map(u64::to_le_bytes).map(u64::from);
        all.take(count).collect()
    }

    /// Numbers of 16 bits, each as a word.
    pub fn quarters(&mut self) -> Vec<u64> {
        let count = self.word() as usize;
        let all = self.words(count.div_ceil(4)).into_iter().flat_map(|w| [0, 16, 32, 48].map(|at| w >> at & 0xffff));
        all.take(count).collect()
    }

    /// Numbers of 32 bits, each as a word.
    pub fn halves(&mut self) -> Vec<u64> {
        let count = self.word() as usize;
        let all = self.words(count.div_ceil(2)).into_iter().flat_map(|w| [w & 0xffff_ffff, w >> 32]);
        all.take(count).collect()
    }
}

/// The bits of a float; every NaN is one.
pub fn bits(w: u64) -> u64 {
    if f64::from_bits(w).is_nan() { NAN } else { w }
}
