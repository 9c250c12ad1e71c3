//! A motion vector, as the original's module of this name has it.

/// A vector in quarters of a luma pixel; down and right are positive.
#[derive(Debug, Clone, Copy, Default, PartialEq, Eq, Hash)]
pub struct Mv {
    /// Down.
    pub row: i16,
    /// To the right.
    pub col: i16,
}
