// Stand-in for the original's module of this name: only its record of samples.
#[derive(Debug, Clone, Copy, PartialEq, Eq)]
pub struct ReconstructedMb {
    pub y: [u8; 256],
    pub u: [u8; 64],
    pub v: [u8; 64],
}

impl Default for ReconstructedMb {
    fn default() -> Self {
        ReconstructedMb {
            y: [0; 256],
            u: [0; 64],
            v: [0; 64],
        }
    }
}
