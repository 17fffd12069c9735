//! A rectangle of samples.

#[allow(dead_code)]
#[derive(Clone, Copy)]
pub struct TileRect {
    pub x: usize,
    pub y: usize,
    pub width: usize,
    pub height: usize,
}
