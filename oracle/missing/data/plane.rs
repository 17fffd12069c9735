//! Parts of planes, with every index tested, and the reduction of a plane by a factor (the mean of each square).
use std::num::NonZeroU8;
use std::ops::Index;

use v_frame::{
    pixel::Pixel,
    plane::{Plane, PlaneGeometry},
};

#[derive(Clone, Copy)]
pub struct Rect {
    pub x: isize,
    pub y: isize,
    pub width: usize,
    pub height: usize,
}

#[derive(Clone, Copy)]
pub enum Area {
    Rect(Rect),
}

#[derive(Clone, Copy)]
pub struct PlaneOffset {
    pub x: isize,
    pub y: isize,
}

fn row_start(cfg: &PlaneGeometry, rect: &Rect, y: usize) -> usize {
    cfg.origin + (rect.y as usize + y) * cfg.stride + rect.x as usize
}

pub struct PlaneRegion<'a, T: Pixel> {
    samples: &'a [T],
    pub plane_cfg: PlaneGeometry,
    rect: Rect,
}

impl<'a, T: Pixel> PlaneRegion<'a, T> {
    pub fn rect(&self) -> &Rect {
        &self.rect
    }
    pub fn subregion(&self, area: Area) -> PlaneRegion<'a, T> {
        let Area::Rect(r) = area;
        assert!(r.x as usize + r.width <= self.rect.width && r.y as usize + r.height <= self.rect.height);
        let rect = Rect { x: self.rect.x + r.x, y: self.rect.y + r.y, ..r };
        PlaneRegion { samples: self.samples, plane_cfg: self.plane_cfg, rect }
    }
    pub fn rows_iter(&self) -> impl Iterator<Item = &[T]> {
        (0..self.rect.height).map(move |y| &self[y])
    }
}

impl<T: Pixel> Index<usize> for PlaneRegion<'_, T> {
    type Output = [T];
    fn index(&self, y: usize) -> &[T] {
        assert!(y < self.rect.height);
        let at = row_start(&self.plane_cfg, &self.rect, y);
        &self.samples[at..at + self.rect.width]
    }
}

pub struct PlaneRegionMut<'a, T: Pixel> {
    samples: &'a mut [T],
    pub plane_cfg: PlaneGeometry,
    rect: Rect,
}

impl<T: Pixel> PlaneRegionMut<'_, T> {
    pub fn rect(&self) -> &Rect {
        &self.rect
    }
    pub fn rows_iter_mut(&mut self) -> impl Iterator<Item = &mut [T]> {
        let (cfg, rect) = (self.plane_cfg, self.rect);
        let first = row_start(&cfg, &rect, 0);
        self.samples[first..].chunks_mut(cfg.stride).take(rect.height).map(move |row| &mut row[..rect.width])
    }
}

pub trait AsRegion<T: Pixel> {
    fn region(&self, area: Area) -> PlaneRegion<'_, T>;
    fn region_mut(&mut self, area: Area) -> PlaneRegionMut<'_, T>;
    fn as_region(&self) -> PlaneRegion<'_, T>;
}

impl<T: Pixel> AsRegion<T> for Plane<T> {
    fn region(&self, area: Area) -> PlaneRegion<'_, T> {
        self.as_region().subregion(area)
    }
    fn region_mut(&mut self, area: Area) -> PlaneRegionMut<'_, T> {
        let Area::Rect(rect) = area;
        assert!(rect.x as usize + rect.width <= self.shape.width && rect.y as usize + rect.height <= self.shape.height);
        PlaneRegionMut { plane_cfg: self.shape, rect, samples: &mut self.samples }
    }
    fn as_region(&self) -> PlaneRegion<'_, T> {
        let rect = Rect { x: 0, y: 0, width: self.shape.width, height: self.shape.height };
        PlaneRegion { samples: &self.samples, plane_cfg: self.shape, rect }
    }
}

pub(crate) fn downscale<T: Pixel, const SCALE: usize>(plane: &Plane<T>, _bit_depth: NonZeroU8) -> Plane<T> {
    if plane.mark.is_some() {
        return plane.clone();
    }
    let (width, height) = (plane.shape.width / SCALE, plane.shape.height / SCALE);
    let shape = PlaneGeometry { width, height, stride: width, origin: 0 };
    let mut out = Plane::over(vec![T::default(); width * height], shape);
    downscale_in_place::<T, SCALE>(plane, &mut out);
    out
}

pub(crate) fn downscale_in_place<T: Pixel, const SCALE: usize>(plane: &Plane<T>, out: &mut Plane<T>) {
    if plane.mark.is_some() {
        out.mark = plane.mark;
        return;
    }
    for y in 0..out.shape.height {
        for x in 0..out.shape.width {
            let mut sum = 0u32;
            for row in 0..SCALE {
                for &s in &plane.row(y * SCALE + row)[x * SCALE..][..SCALE] {
                    let s: u16 = s.into();
                    sum += u32::from(s);
                }
            }
            let half = (SCALE * SCALE / 2) as u32;
            let mean = (sum + half) / (SCALE * SCALE) as u32;
            out.samples[y * out.shape.stride + x + out.shape.origin] = T::try_from(mean as u16).unwrap_or_default();
        }
    }
}
