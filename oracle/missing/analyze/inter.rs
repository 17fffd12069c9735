//! In place of the motion search: the inter cost that the frame carries. Beside it the door of the oracle: what the crate
//! keeps to itself can be reached from a module inside it, and only from there.
use std::{num::NonZeroU8, sync::Arc};

use num_rational::Rational32;
use v_frame::{chroma::ChromaSubsampling, frame::Frame, pixel::Pixel, plane::Plane};

use super::{SceneChangeDetector, ScenecutResult, fast::detect_scale_factor};
use crate::{
    SceneDetectionSpeed,
    data::{
        hadamard,
        motion::RefMEStats,
        plane::{AsRegion, downscale_in_place},
        sad::sad_plane,
        satd::get_satd,
    },
};

#[allow(clippy::missing_inline_in_public_items)]
pub fn estimate_inter_costs<T: Pixel>(
    frame: &Arc<Frame<T>>,
    _ref_frame: &Arc<Frame<T>>,
    _bit_depth: usize,
    _frame_rate: Rational32,
    _chroma_sampling: ChromaSubsampling,
    _buffer: RefMEStats,
) -> f64 {
    frame.fed.inter
}

impl<T: Pixel> SceneChangeDetector<T> {
    /// Offset and entries, front first.
    pub fn door_look(&self) -> (usize, &[ScenecutResult]) {
        (self.deque_offset, &self.score_deque)
    }

    /// Puts the detector into a given state. In scaled Fast mode it then holds the plane that was compared last.
    pub fn door_put(&mut self, offset: usize, entries: &[ScenecutResult], last: Option<&Frame<T>>) {
        self.deque_offset = offset;
        self.score_deque.clear();
        self.score_deque.extend_from_slice(entries);
        self.downscaled_frame_buffer = match (&self.scale_func, last) {
            (Some(f), Some(frame)) => {
                let kept = (f.downscale)(&frame.y_plane, frame.bit_depth);
                Some([kept.clone(), kept])
            }
            _ => None,
        };
    }

    /// The samples that a delta is divided by.
    pub fn door_pixels(&self) -> usize {
        self.scaled_pixels
    }

    pub fn door_fast(&mut self, first: &Arc<Frame<T>>, second: &Arc<Frame<T>>) -> ScenecutResult {
        self.fast_scenecut(first, second)
    }

    pub fn door_standard(&mut self, first: &Arc<Frame<T>>, second: &Arc<Frame<T>>) -> ScenecutResult {
        self.cost_scenecut(first, second, 1)
    }

    pub fn door_scale(width: usize, height: usize, mode: SceneDetectionSpeed) -> usize {
        detect_scale_factor::<T>((width, height), mode).map_or(1, |f| f.factor.get())
    }

    /// A plane reduced as the detector would reduce it.
    pub fn door_reduced(&self, plane: &Plane<T>) -> Plane<T> {
        match &self.scale_func {
            Some(f) => (f.downscale)(plane, NonZeroU8::new(self.bit_depth as u8).unwrap()),
            None => plane.clone(),
        }
    }

    /// The same by a factor above 1, into a plane that is there.
    pub fn door_reduce(plane: &Plane<T>, factor: usize, out: &mut Plane<T>) {
        match factor {
            2 => downscale_in_place::<T, 2>(plane, out),
            4 => downscale_in_place::<T, 4>(plane, out),
            8 => downscale_in_place::<T, 8>(plane, out),
            16 => downscale_in_place::<T, 16>(plane, out),
            32 => downscale_in_place::<T, 32>(plane, out),
            _ => panic!("no reduction has this factor"),
        }
    }

    pub fn door_difference(first: &Plane<T>, second: &Plane<T>) -> u64 {
        sad_plane(first, second)
    }

    pub fn door_satd(first: &Plane<T>, second: &Plane<T>) -> u32 {
        get_satd(&first.as_region(), &second.as_region(), 8, 8, 8)
    }

    pub fn door_hadamard(list: &mut [i32]) {
        // SAFETY: the length is the transform's own.
        match list.len() {
            16 => unsafe { hadamard::hadamard4x4(list) },
            64 => unsafe { hadamard::hadamard8x8(list) },
            _ => panic!("no transform has this length"),
        }
    }
}
