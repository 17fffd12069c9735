//! Blocks of 8 × 8 samples, the only ones that the crate's files ask for.

pub const MAX_TX_SIZE: usize = 64;

#[allow(non_camel_case_types)]
#[derive(Clone, Copy)]
pub enum TxSize {
    TX_8X8,
}

impl TxSize {
    pub const fn width(self) -> usize {
        8
    }
    pub const fn height(self) -> usize {
        8
    }
}

#[derive(Clone, Copy)]
pub struct BlockSize;

impl BlockSize {
    pub fn from_width_and_height(width: usize, height: usize) -> Self {
        assert!(width == 8 && height == 8);
        BlockSize
    }
    pub const fn tx_size(self) -> TxSize {
        TxSize::TX_8X8
    }
    pub const fn width(self) -> usize {
        8
    }
    pub const fn height(self) -> usize {
        8
    }
}
