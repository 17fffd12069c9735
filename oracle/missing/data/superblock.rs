//! A block of the crate's grid has 4 samples a side.

pub const MI_SIZE_LOG2: usize = 2;
