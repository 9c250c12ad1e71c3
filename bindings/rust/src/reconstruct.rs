//! The samples of a macroblock, as the original's module of this name has them.

/// A macroblock's samples, each plane row after row.
#[derive(Debug, Clone, Copy, PartialEq, Eq)]
pub struct ReconstructedMb {
    /// 16 by 16 of luma.
    pub y: [u8; 256],
    /// 8 by 8 of U.
    pub u: [u8; 64],
    /// 8 by 8 of V.
    pub v: [u8; 64],
}

impl Default for ReconstructedMb {
    /// All samples 0.
    fn default() -> Self {
        ReconstructedMb { y: [0; 256], u: [0; 64], v: [0; 64] }
    }
}
