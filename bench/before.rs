//! The 8×8 transform beside that of an older archive (`BEFORE=`): the same answer and the same list on ten million blocks, and
//! the time of both.
use crate::library::hadamard8x8;
use crate::{accepted, line, transforms};

const BLOCKS: u32 = 10_000_000;
const ENTRIES: usize = 64;
/// The largest entry that is not refused.
const MOST: i32 = 65535;

type List = [i32; ENTRIES];

unsafe extern "C" {
    fn before_hadamard8x8(list: *mut i32, len: usize) -> i64;
}

fn before(list: &mut [i32]) -> i64 {
    // SAFETY: the pointer is lent with its own length.
    unsafe { before_hadamard8x8(list.as_mut_ptr(), list.len()) }
}

struct Random(u64);

impl Random {
    fn next(&mut self) -> u32 {
        self.0 = self.0.wrapping_mul(6_364_136_223_846_793_005).wrapping_add(1_442_695_040_888_963_407);
        (self.0 >> 32) as u32
    }

    /// A number from -most to most.
    fn within(&mut self, most: i32) -> i32 {
        let most = i64::from(most);
        ((i64::from(self.next()) * (2 * most + 1) >> 32) - most) as i32
    }

    /// Four kinds: of all sizes, of differences of bytes, of the largest sizes alone, and with one entry that may be out of range.
    fn list(&mut self) -> List {
        let kind = self.next() >> 30;
        let mut list: List = std::array::from_fn(|_| match kind {
            1 => self.within(255),
            2 => [-MOST, MOST][self.next() as usize >> 31],
            _ => self.within(MOST),
        });
        if kind == 3 {
            let place = self.next() as usize % ENTRIES;
            list[place] = [MOST + 1, -MOST - 1, i32::MIN, i32::MAX, MOST, -MOST, self.within(i32::MAX), 0][self.next() as usize % 8];
        }
        list
    }
}

pub fn same() {
    let mut random = Random(2026);
    let mut refused = 0;
    for number in 0..BLOCKS {
        let source = random.list();
        let (mut old, mut new) = (source, source);
        let answers = (before(&mut old), hadamard8x8(&mut new));
        assert!(answers.0 == answers.1 && old == new, "block {number}: {answers:?} of {source:?}: {old:?}, {new:?}");
        if answers.0 != 0 {
            assert_eq!(new, source, "block {number} is refused, and changed");
            refused += 1;
        }
    }
    println!("transform, before and now: {BLOCKS} blocks the same, {refused} of them refused");
}

pub fn transform() {
    let [old, new] = transforms(|block| assert_eq!(before(block), 0), accepted);
    line("transform, before and now", "8×8", old, new, "with the copy of its input");
}
