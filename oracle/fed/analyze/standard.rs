//! In place of the published file where all three measures are fed: a score is made of the numbers that the second frame
//! carries, and which frame that is, and by what number the crate calls it, is noted. The rest of the crate is as published.
use std::sync::Arc;

use v_frame::{frame::Frame, pixel::Pixel, watch};

use super::{SceneChangeDetector, ScenecutResult};

impl<T: Pixel> SceneChangeDetector<T> {
    pub(super) fn cost_scenecut(
        &mut self,
        _frame1: &Arc<Frame<T>>,
        frame2: &Arc<Frame<T>>,
        input_frameno: usize,
    ) -> ScenecutResult {
        if let Some(mark) = frame2.y_plane.mark {
            watch::note(mark.frame, Some(input_frameno as u64));
        }
        ScenecutResult {
            inter_cost: frame2.fed.inter,
            imp_block_cost: frame2.fed.importance,
            threshold: frame2.fed.threshold,
            backward_adjusted_cost: 0.0,
            forward_adjusted_cost: 0.0,
        }
    }
}
