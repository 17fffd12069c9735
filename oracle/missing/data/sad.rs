//! The dispatchers: no assembly here, so the crate's Rust is called. Two planes that carry marks in place of samples
//! differ by what the second one's mark says, and a plane does not differ from itself. That they were compared is noted.
mod rust;

use v_frame::{pixel::Pixel, plane::Plane, watch};

use crate::data::plane::PlaneRegion;

pub(crate) fn sad_plane<T: Pixel>(src: &Plane<T>, dst: &Plane<T>) -> u64 {
    let (Some(a), Some(b)) = (src.mark, dst.mark) else {
        return rust::sad_plane_internal(src, dst);
    };
    watch::note(b.frame, None);
    if a.frame == b.frame { 0 } else { b.difference }
}

pub(crate) fn get_sad<T: Pixel>(
    org: &PlaneRegion<'_, T>,
    reference: &PlaneRegion<'_, T>,
    w: usize,
    h: usize,
    bit_depth: usize,
) -> u32 {
    rust::get_sad_internal(org, reference, w, h, bit_depth)
}
