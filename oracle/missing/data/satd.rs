//! The dispatcher: no assembly here, so the crate's Rust is called.
mod rust;

use v_frame::pixel::Pixel;

use crate::data::plane::PlaneRegion;

pub(crate) fn get_satd<T: Pixel>(
    org: &PlaneRegion<'_, T>,
    reference: &PlaneRegion<'_, T>,
    w: usize,
    h: usize,
    bit_depth: usize,
) -> u32 {
    rust::get_satd_internal(org, reference, w, h, bit_depth)
}
