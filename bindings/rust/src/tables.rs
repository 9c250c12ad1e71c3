//! The two tables of filter taps, and their names.

/// Six taps for each eighth of a pixel: version 0.
pub static SIXTAP_FILTERS: [[i32; 6]; 8] = [
    [0, 0, 128, 0, 0, 0],
    [0, -6, 123, 12, -1, 0],
    [2, -11, 108, 36, -8, 1],
    [0, -9, 93, 50, -6, 0],
    [3, -16, 77, 77, -16, 3],
    [0, -6, 50, 93, -9, 0],
    [1, -8, 36, 108, -11, 2],
    [0, -1, 12, 123, -6, 0],
];

/// Two taps for each eighth of a pixel, in the middle of six: all other versions.
pub static BILINEAR_FILTERS: [[i32; 6]; 8] = [
    [0, 0, 128, 0, 0, 0],
    [0, 0, 112, 16, 0, 0],
    [0, 0, 96, 32, 0, 0],
    [0, 0, 80, 48, 0, 0],
    [0, 0, 64, 64, 0, 0],
    [0, 0, 48, 80, 0, 0],
    [0, 0, 32, 96, 0, 0],
    [0, 0, 16, 112, 0, 0],
];

/// Which table a frame's prediction takes.
#[derive(Debug, Clone, Copy, PartialEq, Eq)]
pub enum FilterSet {
    /// [`SIXTAP_FILTERS`].
    Sixtap,
    /// [`BILINEAR_FILTERS`].
    Bilinear,
}

impl FilterSet {
    /// The table.
    ///
    /// ```
    /// use threshowl::tables::FilterSet;
    /// assert_eq!(FilterSet::Bilinear.taps()[4], [0, 0, 64, 64, 0, 0]);
    /// ```
    pub fn taps(self) -> &'static [[i32; 6]; 8] {
        match self {
            FilterSet::Sixtap => &SIXTAP_FILTERS,
            FilterSet::Bilinear => &BILINEAR_FILTERS,
        }
    }

    /// The name of a table, if it is one of the two.
    ///
    /// ```
    /// use threshowl::tables::{FilterSet, SIXTAP_FILTERS};
    /// assert_eq!(FilterSet::of(&SIXTAP_FILTERS), Some(FilterSet::Sixtap));
    /// assert_eq!(FilterSet::of(&[[0; 6]; 8]), None);
    /// ```
    pub fn of(taps: &[[i32; 6]; 8]) -> Option<FilterSet> {
        let sets = [FilterSet::Sixtap, FilterSet::Bilinear];
        let lent = |set: &FilterSet| std::ptr::eq(taps, set.taps());
        sets.into_iter().find(lent).or_else(|| sets.into_iter().find(|set| taps == set.taps()))
    }

    /// The code that the C functions take.
    pub(crate) fn code(self) -> u8 {
        match self {
            FilterSet::Sixtap => 0,
            FilterSet::Bilinear => 1,
        }
    }
}

/// The table for a frame's version: six taps for 0, else two, for the reserved versions too.
///
/// ```
/// use threshowl::tables::{filter_set_for_version, FilterSet};
/// assert_eq!(filter_set_for_version(0), FilterSet::Sixtap);
/// assert_eq!(filter_set_for_version(3), FilterSet::Bilinear);
/// ```
pub fn filter_set_for_version(version: u8) -> FilterSet {
    if version == 0 {
        FilterSet::Sixtap
    } else {
        FilterSet::Bilinear
    }
}
