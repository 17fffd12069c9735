//! Frames and planes, as far as the crate's files use them. A plane is samples, sides, stride and origin. What the
//! original cannot do: a plane here has whatever stride and origin the case asks for, a frame carries the three measures
//! of the pair that it ends, and a plane may carry a mark in place of samples. What is compared of these is noted.

pub mod chroma {
    #[derive(Clone, Copy, Debug, PartialEq, Eq)]
    pub enum ChromaSubsampling {
        Monochrome,
    }
}

pub mod pixel {
    /// A sample: a number that fits into 16 bits.
    pub trait Pixel: Copy + Default + Send + Sync + Into<u16> + TryFrom<u16> + 'static {}
    impl Pixel for u8 {}
    impl Pixel for u16 {}
}

pub mod plane {
    use crate::pixel::Pixel;

    #[derive(Clone, Copy, Debug)]
    pub struct PlaneGeometry {
        pub width: usize,
        pub height: usize,
        pub stride: usize,
        pub origin: usize,
    }

    impl PlaneGeometry {
        pub fn width(&self) -> usize {
            self.width
        }
        pub fn height(&self) -> usize {
            self.height
        }
        pub fn stride(&self) -> usize {
            self.stride
        }
        pub fn data_origin(&self) -> usize {
            self.origin
        }
    }

    /// In place of samples: the frame's number, and its difference from the frame before it.
    #[derive(Clone, Copy, Debug, PartialEq)]
    pub struct Mark {
        pub frame: u64,
        pub difference: u64,
    }

    #[derive(Clone, Debug)]
    pub struct Plane<T: Pixel> {
        pub samples: Vec<T>,
        pub shape: PlaneGeometry,
        pub mark: Option<Mark>,
    }

    impl<T: Pixel> Plane<T> {
        /// A plane over given samples, which must reach as far as the shape says.
        pub fn over(samples: Vec<T>, shape: PlaneGeometry) -> Self {
            let end = shape.origin + (shape.height - 1) * shape.stride + shape.width;
            assert!(shape.stride >= shape.width && end <= samples.len());
            Plane { samples, shape, mark: None }
        }

        /// A plane without samples that carries a mark.
        pub fn marked(mark: Mark) -> Self {
            let shape = PlaneGeometry { width: 0, height: 0, stride: 0, origin: 0 };
            Plane { samples: Vec::new(), shape, mark: Some(mark) }
        }

        pub fn width(&self) -> usize {
            self.shape.width
        }
        pub fn height(&self) -> usize {
            self.shape.height
        }
        pub fn geometry(&self) -> PlaneGeometry {
            self.shape
        }
        pub fn data(&self) -> &[T] {
            &self.samples
        }
        /// The visible part of one row.
        pub fn row(&self, y: usize) -> &[T] {
            let at = self.shape.origin + y * self.shape.stride;
            &self.samples[at..at + self.shape.width]
        }
        pub fn rows(&self) -> impl Iterator<Item = &[T]> {
            (0..self.shape.height).map(move |y| self.row(y))
        }
    }
}

pub mod frame {
    use crate::{pixel::Pixel, plane::Plane};
    use std::num::NonZeroU8;

    /// The measures of the pair whose second frame this is.
    #[derive(Clone, Copy, Debug, Default)]
    pub struct Fed {
        pub inter: f64,
        pub importance: f64,
        pub threshold: f64,
    }

    #[derive(Clone, Debug)]
    pub struct Frame<T: Pixel> {
        pub y_plane: Plane<T>,
        pub bit_depth: NonZeroU8,
        pub fed: Fed,
    }

    impl<T: Pixel> Frame<T> {
        /// A frame of 8 bits.
        pub fn of(y_plane: Plane<T>, fed: Fed) -> Self {
            Frame::deep(y_plane, 8, fed)
        }
        pub fn deep(y_plane: Plane<T>, bit_depth: u8, fed: Fed) -> Self {
            Frame { y_plane, bit_depth: NonZeroU8::new(bit_depth).unwrap(), fed }
        }
    }
}

/// Which marked frames the crate's code compares: its scores do not say of which pair they are. Nothing is noted unless that is
/// asked for, so that a measurement of the crate has nothing of it.
pub mod watch {
    use std::cell::{Cell, RefCell};

    /// One comparison: the number of the second frame, and the number that the crate's code hands on for it, where it does.
    #[derive(Clone, Copy, Debug)]
    pub struct Compared {
        pub frame: u64,
        pub said: Option<u64>,
    }

    thread_local! {
        static ASKED: Cell<bool> = const { Cell::new(false) };
        static SEEN: RefCell<Vec<Compared>> = const { RefCell::new(Vec::new()) };
    }

    pub fn note(frame: u64, said: Option<u64>) {
        if ASKED.get() {
            SEEN.with_borrow_mut(|seen| seen.push(Compared { frame, said }));
        }
    }

    /// What is compared meanwhile, in its order.
    pub fn during<R>(run: impl FnOnce() -> R) -> (R, Vec<Compared>) {
        ASKED.set(true);
        let result = run();
        ASKED.set(false);
        (result, SEEN.take())
    }
}
