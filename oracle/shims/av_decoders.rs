//! A decoder that hands out a list of frames made before.
use std::collections::VecDeque;

use num_rational::Rational32;
use v_frame::{chroma::ChromaSubsampling, frame::Frame, pixel::Pixel, plane::Plane};

pub struct VideoDetails {
    pub width: usize,
    pub height: usize,
    pub bit_depth: usize,
    pub frame_rate: Rational32,
    pub chroma_sampling: ChromaSubsampling,
}

#[derive(Debug)]
pub enum DecoderError {
    EndOfFile,
    Other,
}

impl std::fmt::Display for DecoderError {
    fn fmt(&self, f: &mut std::fmt::Formatter<'_>) -> std::fmt::Result {
        write!(f, "{self:?}")
    }
}

impl std::error::Error for DecoderError {}

pub struct Decoder {
    details: VideoDetails,
    /// Samples of 16 bits hold those of both words.
    frames: VecDeque<Frame<u16>>,
}

impl Decoder {
    pub fn of<T: Pixel>(width: usize, height: usize, bit_depth: usize, frames: Vec<Frame<T>>) -> Self {
        let details = VideoDetails {
            width,
            height,
            bit_depth,
            frame_rate: Rational32(1, 600),
            chroma_sampling: ChromaSubsampling::Monochrome,
        };
        Decoder { details, frames: frames.iter().map(|f| of_samples(f, |s| s.into())).collect() }
    }

    pub fn get_video_details(&self) -> &VideoDetails {
        &self.details
    }

    pub fn read_video_frame<T: Pixel>(&mut self) -> Result<Frame<T>, DecoderError> {
        let Some(f) = self.frames.pop_front() else {
            return Err(DecoderError::EndOfFile);
        };
        Ok(of_samples(&f, |s| T::try_from(s).unwrap_or_default()))
    }
}

/// A frame with its samples in another word.
fn of_samples<T: Pixel, U: Pixel>(f: &Frame<T>, word: fn(T) -> U) -> Frame<U> {
    let samples = f.y_plane.samples.iter().map(|&s| word(s)).collect();
    let y_plane = Plane { samples, shape: f.y_plane.shape, mark: f.y_plane.mark };
    Frame { y_plane, bit_depth: f.bit_depth, fed: f.fed }
}
