//! A value at an aligned place.
use std::ops::{Deref, DerefMut};

#[repr(align(64))]
#[derive(Clone, Copy)]
pub struct A64;

pub struct Aligned<A, T> {
    _place: [A; 0],
    value: T,
}

#[allow(non_snake_case)]
pub const fn Aligned<A, T>(value: T) -> Aligned<A, T> {
    Aligned { _place: [], value }
}

impl<A, T> Deref for Aligned<A, T> {
    type Target = T;
    fn deref(&self) -> &T {
        &self.value
    }
}

impl<A, T> DerefMut for Aligned<A, T> {
    fn deref_mut(&mut self) -> &mut T {
        &mut self.value
    }
}
