// Stand-in for the original's module of this name: only its vector.
#[derive(Debug, Clone, Copy, Default, PartialEq, Eq)]
pub struct Mv {
    pub row: i16,
    pub col: i16,
}
