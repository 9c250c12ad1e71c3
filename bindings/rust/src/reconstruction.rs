//! Finished macroblocks with refusals as values: prediction with its residue added, whole, at whole pixels and split.
//!
//! Coefficients are dequantised, 4x4 blocks one after the other, sixteen numbers each in raster order: Y2, sixteen blocks of Y,
//! four of U and four of V, [`COEFFICIENTS`] in all. Split has no Y2, and [`SPLIT_COEFFICIENTS`]. Y2's are in -16383..=16383, all
//! others in -4095..=4095. What Y2 transforms to stands in for the first number of each Y block, and the one that is handed over
//! there may be any.
//!
//! With `skip` the coefficients are counted, and not looked at: the prediction is the macroblock.
//!
//! The calls from levels take the quantised levels of a stream in the same order, any number each, and multiply them by the six
//! factors of [`QuantIndices`]. The products are then the coefficients, and are refused as such.
//!
//! The numbers 5, 6 and 7 of the C header are never given: the types rule them out. 11 comes after all others.

use crate::ffi;
use crate::motion_vector::Mv;
use crate::prediction::{bytes_of, written, Picture, Position};
use crate::reconstruct::ReconstructedMb;
use crate::tables::FilterSet;
use crate::Refusal;

/// How many coefficients a macroblock with one vector has, Y2 among them.
pub const COEFFICIENTS: usize = 400;

/// How many coefficients a split macroblock has.
pub const SPLIT_COEFFICIENTS: usize = 384;

/// [`predict_whole`](crate::prediction::predict_whole) and the residue of [`COEFFICIENTS`] numbers.
///
/// Refuses with 1 to 4, or 11.
///
/// ```
/// use threshowl::motion_vector::Mv;
/// use threshowl::prediction::{Picture, Position};
/// use threshowl::reconstruction::{reconstruct_whole, COEFFICIENTS};
/// use threshowl::tables::FilterSet;
/// use threshowl::Refusal;
///
/// let (luma, chroma) = ([100; 256], [50; 64]);
/// let picture = Picture {
///     y: &luma, u: &chroma, v: &chroma, y_stride: 16, u_stride: 8, v_stride: 8, mb_cols: 1, mb_rows: 1,
/// };
/// let first = Position { mb_col: 0, mb_row: 0 };
/// let finish = |skip, coefficients: &[i16]| {
///     reconstruct_whole(&picture, first, Mv::default(), FilterSet::Sixtap, false, skip, coefficients)
/// };
/// let mut coefficients = [0; COEFFICIENTS];
/// coefficients[0] = 64; // Y2 gives 8 to each block of Y, which adds 1 to each of its samples
/// coefficients[16 + 16 * 16 + 3 * 16] = -80; // the last block of U
/// let mb = finish(false, &coefficients)?;
/// assert_eq!((mb.y, mb.u[0], mb.u[63], mb.v[63]), ([101; 256], 50, 40, 50));
/// assert_eq!(finish(true, &coefficients)?.y, luma);
///
/// coefficients[17] = 4096;
/// assert_eq!(finish(false, &coefficients), Err(Refusal::BadCoefficients));
/// assert_eq!(finish(true, &coefficients[1..]), Err(Refusal::BadCoefficients));
/// # Ok::<(), Refusal>(())
/// ```
pub fn reconstruct_whole(
    picture: &Picture<'_>,
    at: Position,
    mv: Mv,
    filter: FilterSet,
    full_pixel: bool,
    skip: bool,
    coefficients: &[i16],
) -> Result<ReconstructedMb, Refusal> {
    let codes = [filter.code(), full_pixel.into(), skip.into()];
    written(|out| ffi::finished_whole(picture, at, mv, codes, coefficients, out))
}

/// What [`reconstruct_whole`] gives with a vector that leaves no fraction of a pixel in any plane, once it is lowered where
/// `full_pixel` is set.
///
/// Refuses with 1 to 4, 8 for a vector that leaves a fraction, or 11.
///
/// ```
/// # use threshowl::motion_vector::Mv;
/// # use threshowl::prediction::{Picture, Position};
/// # use threshowl::reconstruction::{reconstruct_whole_pixel, COEFFICIENTS};
/// # use threshowl::Refusal;
/// # let luma: Vec<u8> = (0..=255).collect();
/// # let chroma = [50; 64];
/// # let picture = Picture {
/// #     y: &luma, u: &chroma, v: &chroma, y_stride: 16, u_stride: 8, v_stride: 8, mb_cols: 1, mb_rows: 1,
/// # };
/// # let first = Position { mb_col: 0, mb_row: 0 };
/// let mut coefficients = [0; COEFFICIENTS];
/// coefficients[16 + 20 * 16] = 400; // the first block of V
/// let right = Mv { row: 0, col: 8 };
/// let mb = reconstruct_whole_pixel(&picture, first, right, false, false, &coefficients)?;
/// assert_eq!((mb.y[0], mb.v[0], mb.v[4]), (2, 100, 50));
///
/// let between = Mv { row: 0, col: 4 }; // whole in luma, and half a pixel in chroma
/// assert_eq!(reconstruct_whole_pixel(&picture, first, between, false, false, &coefficients), Err(Refusal::FractionLeft));
/// # Ok::<(), Refusal>(())
/// ```
pub fn reconstruct_whole_pixel(
    picture: &Picture<'_>,
    at: Position,
    mv: Mv,
    full_pixel: bool,
    skip: bool,
    coefficients: &[i16],
) -> Result<ReconstructedMb, Refusal> {
    let codes = [full_pixel.into(), skip.into()];
    written(|out| ffi::finished_whole_pixel(picture, at, mv, codes, coefficients, out))
}

/// [`predict_split`](crate::prediction::predict_split) and the residue of [`SPLIT_COEFFICIENTS`] numbers.
///
/// Refuses with 1 to 4, or 11.
///
/// ```
/// # use threshowl::motion_vector::Mv;
/// # use threshowl::prediction::{Picture, Position};
/// # use threshowl::reconstruction::{reconstruct_split, SPLIT_COEFFICIENTS};
/// # use threshowl::tables::FilterSet;
/// # let (luma, chroma) = ([100; 256], [50; 64]);
/// # let picture = Picture {
/// #     y: &luma, u: &chroma, v: &chroma, y_stride: 16, u_stride: 8, v_stride: 8, mb_cols: 1, mb_rows: 1,
/// # };
/// # let first = Position { mb_col: 0, mb_row: 0 };
/// let mut coefficients = [0; SPLIT_COEFFICIENTS];
/// coefficients[5 * 16] = 4000; // the block at row 4, column 4: 500 more, which clamps
/// let mvs = [Mv::default(); 16];
/// let mb = reconstruct_split(&picture, first, &mvs, FilterSet::Sixtap, false, false, &coefficients)?;
/// assert_eq!((mb.y[4 * 16 + 3], mb.y[4 * 16 + 4]), (100, 255));
/// # Ok::<(), threshowl::Refusal>(())
/// ```
pub fn reconstruct_split(
    picture: &Picture<'_>,
    at: Position,
    mvs: &[Mv; 16],
    filter: FilterSet,
    full_pixel: bool,
    skip: bool,
    coefficients: &[i16],
) -> Result<ReconstructedMb, Refusal> {
    let codes = [filter.code(), full_pixel.into(), skip.into()];
    written(|out| ffi::finished_split(picture, at, &bytes_of(mvs), codes, coefficients, out))
}

/// A base index and five deltas, as a frame's header has them (RFC 6386, section 9.6); any number each. An index is base plus
/// delta, or the nearer end of 0..=127, and names a step of one of the two tables of section 14.1.
#[derive(Clone, Copy, Debug, Default, PartialEq, Eq)]
pub struct QuantIndices {
    /// The base: the index of Y AC.
    pub y_ac_qi: i32,
    /// Of Y DC.
    pub y_dc_delta: i32,
    /// Of Y2 DC, whose step is doubled.
    pub y2_dc_delta: i32,
    /// Of Y2 AC, whose step is multiplied by 155 and divided by 100, and at least 8.
    pub y2_ac_delta: i32,
    /// Of chroma DC, whose step is at most 132.
    pub uv_dc_delta: i32,
    /// Of chroma AC.
    pub uv_ac_delta: i32,
}

/// [`reconstruct_whole`] of the coefficients that [`COEFFICIENTS`] levels stand for.
///
/// Refuses with 1 to 4, or 11.
///
/// ```
/// use threshowl::reconstruction::{reconstruct_whole_from_levels, QuantIndices, COEFFICIENTS};
/// # use threshowl::motion_vector::Mv;
/// # use threshowl::prediction::{Picture, Position};
/// # use threshowl::tables::FilterSet;
/// # use threshowl::Refusal;
/// # let (luma, chroma) = ([100; 256], [50; 64]);
/// # let picture = Picture {
/// #     y: &luma, u: &chroma, v: &chroma, y_stride: 16, u_stride: 8, v_stride: 8, mb_cols: 1, mb_rows: 1,
/// # };
/// # let first = Position { mb_col: 0, mb_row: 0 };
/// let finish = |levels: &[i16], indices| {
///     reconstruct_whole_from_levels(&picture, first, Mv::default(), FilterSet::Sixtap, false, false, levels, indices)
/// };
/// let mut levels = [0; COEFFICIENTS];
/// levels[0] = 8; // times 8 at index 0: Y2 gives 8 to each block of Y
/// let mb = finish(&levels, QuantIndices::default())?;
/// assert_eq!(mb.y, [101; 256]);
///
/// let highest = QuantIndices { y_ac_qi: 127, ..Default::default() };
/// levels[17] = 14; // times 284
/// assert!(finish(&levels, highest).is_ok());
/// levels[17] = 15; // is beyond 4095
/// assert_eq!(finish(&levels, highest), Err(Refusal::BadCoefficients));
/// # Ok::<(), Refusal>(())
/// ```
#[allow(clippy::too_many_arguments)]
pub fn reconstruct_whole_from_levels(
    picture: &Picture<'_>,
    at: Position,
    mv: Mv,
    filter: FilterSet,
    full_pixel: bool,
    skip: bool,
    levels: &[i16],
    indices: QuantIndices,
) -> Result<ReconstructedMb, Refusal> {
    let codes = [filter.code(), full_pixel.into(), skip.into()];
    written(|out| ffi::levels_whole(picture, at, mv, codes, levels, indices, out))
}

/// [`reconstruct_whole_pixel`] of the coefficients that [`COEFFICIENTS`] levels stand for.
///
/// Refuses with 1 to 4, 8 for a vector that leaves a fraction, or 11.
///
/// ```
/// # use threshowl::motion_vector::Mv;
/// # use threshowl::prediction::{Picture, Position};
/// # use threshowl::reconstruction::{reconstruct_whole_pixel_from_levels, QuantIndices, COEFFICIENTS};
/// # let luma: Vec<u8> = (0..=255).collect();
/// # let chroma = [50; 64];
/// # let picture = Picture {
/// #     y: &luma, u: &chroma, v: &chroma, y_stride: 16, u_stride: 8, v_stride: 8, mb_cols: 1, mb_rows: 1,
/// # };
/// # let first = Position { mb_col: 0, mb_row: 0 };
/// let mut levels = [0; COEFFICIENTS];
/// levels[16 + 20 * 16] = 3; // the first block of V, times 132 at the highest index
/// let right = Mv { row: 0, col: 8 };
/// let highest = QuantIndices { y_ac_qi: 127, ..Default::default() };
/// let mb = reconstruct_whole_pixel_from_levels(&picture, first, right, false, false, &levels, highest)?;
/// assert_eq!((mb.y[0], mb.v[0], mb.v[4]), (2, 100, 50));
/// # Ok::<(), threshowl::Refusal>(())
/// ```
pub fn reconstruct_whole_pixel_from_levels(
    picture: &Picture<'_>,
    at: Position,
    mv: Mv,
    full_pixel: bool,
    skip: bool,
    levels: &[i16],
    indices: QuantIndices,
) -> Result<ReconstructedMb, Refusal> {
    let codes = [full_pixel.into(), skip.into()];
    written(|out| ffi::levels_whole_pixel(picture, at, mv, codes, levels, indices, out))
}

/// [`reconstruct_split`] of the coefficients that [`SPLIT_COEFFICIENTS`] levels stand for.
///
/// Refuses with 1 to 4, or 11.
///
/// ```
/// # use threshowl::motion_vector::Mv;
/// # use threshowl::prediction::{Picture, Position};
/// # use threshowl::reconstruction::{reconstruct_split_from_levels, QuantIndices, SPLIT_COEFFICIENTS};
/// # use threshowl::tables::FilterSet;
/// # let (luma, chroma) = ([100; 256], [50; 64]);
/// # let picture = Picture {
/// #     y: &luma, u: &chroma, v: &chroma, y_stride: 16, u_stride: 8, v_stride: 8, mb_cols: 1, mb_rows: 1,
/// # };
/// # let first = Position { mb_col: 0, mb_row: 0 };
/// let mut levels = [0; SPLIT_COEFFICIENTS];
/// levels[5 * 16] = -2; // the block at row 4, column 4, times 157: 39 less
/// let mvs = [Mv::default(); 16];
/// let beyond = QuantIndices { y_ac_qi: 20, y_dc_delta: i32::MAX, ..Default::default() };
/// let mb = reconstruct_split_from_levels(&picture, first, &mvs, FilterSet::Sixtap, false, false, &levels, beyond)?;
/// assert_eq!((mb.y[4 * 16 + 3], mb.y[4 * 16 + 4]), (100, 61));
/// # Ok::<(), threshowl::Refusal>(())
/// ```
#[allow(clippy::too_many_arguments)]
pub fn reconstruct_split_from_levels(
    picture: &Picture<'_>,
    at: Position,
    mvs: &[Mv; 16],
    filter: FilterSet,
    full_pixel: bool,
    skip: bool,
    levels: &[i16],
    indices: QuantIndices,
) -> Result<ReconstructedMb, Refusal> {
    let codes = [filter.code(), full_pixel.into(), skip.into()];
    written(|out| ffi::levels_split(picture, at, &bytes_of(mvs), codes, levels, indices, out))
}
