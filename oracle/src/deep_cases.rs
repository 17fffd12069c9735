//! Samples of 16 bits that are too large for their depth, or only look so: what refusal 16 is about. Of bytes there are none, and
//! nothing is drawn for them.
use crate::desk::Desk;
use crate::edges::{both, flat};
use crate::list_cases::satd_of;
use crate::measures_reading::{self as read, Lent};
use crate::plane_cases::{intra_of, pair_of};
use crate::random::Random;
use crate::reduce_cases::reduce_of;
use crate::sample::{Sample, most};

pub const LARGEST: u64 = 0xffff;

/// In every second plane, what is not visible: any words.
pub fn pad<T: Sample>(r: &mut Random, l: &mut Lent<T>) {
    if T::IS_DEEP && r.once_in(2) {
        for i in 0..l.samples.len() {
            let at = (i as u64).wrapping_sub(l.origin);
            if (i as u64) < l.origin || at / l.stride >= l.height || at % l.stride >= l.width {
                l.samples[i] = T::of(r.word());
            }
        }
    }
}

/// One visible sample is just too large, or just not, or much too large: anywhere, in the last column or row, in the last place.
pub fn exceed<T: Sample>(r: &mut Random, depth: u64, l: &mut Lent<T>) {
    let (column, row) = (r.below(l.width), r.below(l.height));
    let (right, bottom) = (l.width - 1, l.height - 1);
    let (x, y) = r.of(&[(column, row), (right, row), (column, bottom), (right, bottom)]);
    let limit = most(depth) + 1;
    let any = r.from_to(limit, LARGEST);
    let at = l.place(x, y);
    l.samples[at] = T::of(r.of(&[limit, limit, limit - 1, any, LARGEST]));
}

/// One time in five in one of two planes, or in both.
pub fn exceed_one<T: Sample>(r: &mut Random, depth: u64, a: &mut Lent<T>, b: &mut Lent<T>) {
    if !T::IS_DEEP || !r.once_in(5) {
        return;
    }
    let which = r.below(5);
    if which <= 2 {
        exceed(r, depth, a);
    }
    if which >= 2 {
        exceed(r, depth, b);
    }
}

/// In the first plane one time in six. The second, which is written, may hold any words: it is not looked at.
pub fn exceed_first<T: Sample>(r: &mut Random, depth: u64, a: &mut Lent<T>, written: &mut Lent<T>) {
    if !T::IS_DEEP {
        return;
    }
    if r.once_in(6) {
        exceed(r, depth, a);
    }
    if r.once_in(2) {
        written.samples.iter_mut().for_each(|s| *s = T::of(r.word()));
    }
}

/// A plane of 3s with room around it: 10 × 9 samples, of which 8 × 8 are a whole block. The samples that are not visible are the
/// largest.
fn framed() -> Lent<u16> {
    let mut l = Lent { samples: vec![LARGEST as u16; 112], width: 10, height: 9, stride: 12, origin: 3 };
    (0..90).for_each(|i| put(&mut l, i % 10, i / 10, 3));
    l
}

fn put(l: &mut Lent<u16>, x: u64, y: u64, sample: u64) {
    let at = l.place(x, y);
    l.samples[at] = sample as u16;
}

/// The same with one sample in place of another.
fn with(x: u64, y: u64, sample: u64) -> Lent<u16> {
    let mut l = framed();
    put(&mut l, x, y, sample);
    l
}

fn is_due(desk: &mut Desk, found: u32, due: u32) {
    if found != due {
        desk.tally.differs("another refusal of 16 bits is due");
    }
}

/// Samples at 2 to the depth and one below, in either plane and in both, within whole blocks and outside; and calls to which 16
/// and another refusal apply.
fn measures(desk: &mut Desk, depth: u64) {
    let limit = most(depth) + 1;
    let (sound, large) = (framed(), with(0, 0, limit));
    both(desk, depth, &sound, &sound, 1, [0; 3]);
    both(desk, depth, &with(0, 0, limit - 1), &with(9, 8, limit - 1), 1, [0; 3]);
    for (x, y) in [(0, 0), (7, 7), (8, 0), (9, 8), (9, 0), (0, 8)] {
        both(desk, depth, &with(x, y, limit), &sound, 1, [16; 3]);
        both(desk, depth, &sound, &with(x, y, limit), 1, [16, 16, 0]);
    }
    both(desk, depth, &large, &large, 1, [16; 3]);
    both(desk, depth, &with(5, 3, LARGEST), &sound, 1, [16; 3]);
    both(desk, depth, &large, &sound, 0, [16, 16, 4]);
    both(desk, depth, &large, &Lent { width: 9, ..sound.clone() }, 0, [3; 3]);
    both(desk, depth, &sound, &Lent { height: 8, ..large.clone() }, 1, [3; 3]);
    both(desk, depth, &large, &Lent { samples: vec![3; 108], ..sound.clone() }, 1, [2; 3]);
    both(desk, depth, &large, &Lent { width: 0, ..sound.clone() }, 1, [1; 3]);
    for other in [8, 9, 11, 16] {
        both(desk, other, &large, &sound, 1, [5; 3]);
        both(desk, other, &sound, &sound, 1, [5; 3]);
    }
}

/// Bytes are of 8 bits alone.
fn bytes(desk: &mut Desk) {
    let plane = flat::<u8>(9, 8, 3);
    for depth in [10, 12] {
        pair_of(desk, depth, &plane, &plane);
        intra_of(desk, depth, &plane, &plane, &[7]);
        reduce_of(desk, depth, 2, &plane, &flat(4, 4, 9));
    }
}

/// The plane by 2, into a lent one that holds any words: 5 × 4 squares are whole, and the last row belongs to none.
fn reductions(desk: &mut Desk, depth: u64) {
    let (limit, place) = (most(depth) + 1, flat(5, 4, LARGEST));
    let wide = flat(6, 4, 9);
    for (depth, factor, a, reduced, due) in [
        (depth, 2, framed(), &place, 0),
        (depth, 2, with(9, 8, limit - 1), &place, 0),
        (depth, 2, with(0, 0, limit), &place, 16),
        (depth, 2, with(9, 8, limit), &place, 16),
        (depth, 4, with(9, 0, limit), &flat(2, 2, 9), 16),
        (depth, 2, with(9, 8, limit), &wide, 3),
        (depth, 3, with(9, 8, limit), &place, 6),
        (8, 2, framed(), &place, 5),
        (8, 2, with(9, 8, limit), &place, 5),
    ] {
        is_due(desk, read::reduce_fault(depth, factor, &a, reduced), due);
        reduce_of(desk, depth, factor, &a, reduced);
    }
}

/// Whatever the seed draws. A SATD takes any words.
pub fn edges(desk: &mut Desk) {
    bytes(desk);
    satd_of(desk, &[0; 64], &[LARGEST as u16; 64]);
    satd_of(desk, &[LARGEST as u16; 64], &[0; 64]);
    for &depth in u16::DEPTHS {
        measures(desk, depth);
        reductions(desk, depth);
    }
}
