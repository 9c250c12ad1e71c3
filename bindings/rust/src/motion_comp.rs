//! The calls and types of `motion_comp` of OxideAV/oxideav-vp8, under their names and with their parameters.
//!
//! Predictions are made, and finished with their residue, by `libthreshowl.a`. The functions on vectors are plain Rust, of a line
//! or two each: C cannot reach the proved ones. Where the original would index outside a plane, or go on unchecked, a prediction
//! here panics with the words of a [`Refusal`]: that is where a size, a stride, a plane's length or the position is at fault, or
//! where the table of taps is neither of the two. `threshowl::prediction` and `threshowl::reconstruction` have the same calls with
//! refusals as values.
//!
//! A macroblock that is not skipped also panics, with number 11, where a coefficient is beyond its range: Y2 has -16383..=16383, all
//! others -4095..=4095, and of a whole macroblock the first of each Y block, which Y2 replaces, may be any. The original takes every
//! coefficient, and a stream can hold greater ones: a decoder that is handed streams by strangers calls `threshowl::reconstruction`,
//! which refuses them as a value.
//!
//! Not here:
//!
//! - `interp`, and the `sixtap_..`, `fetch_..` and `filter_block_..` functions on one plane, which C cannot reach;
//! - `select_ref_frame`, which reads the stream: it stays with the decoder.
//!
//! The file takes `Mv` and `ReconstructedMb` from `crate`, as the original does, so that a decoder can have it in the place of its
//! own, over its own types.

use crate::motion_vector::Mv;
use crate::reconstruct::ReconstructedMb;
use core::{fmt, slice};
use threshowl::prediction::{self, Picture, Position};
use threshowl::reconstruction::{self, COEFFICIENTS, SPLIT_COEFFICIENTS};
use threshowl::Refusal;

pub use threshowl::tables::{filter_set_for_version, FilterSet, BILINEAR_FILTERS, SIXTAP_FILTERS};

/// Which of the three earlier pictures a macroblock is predicted from. No call here takes it: it is here because decoders take it
/// from this module.
#[derive(Debug, Clone, Copy, PartialEq, Eq, Hash)]
pub enum RefFrame {
    /// The one before.
    Last,
    /// The golden frame.
    Golden,
    /// The altref frame.
    AltRef,
}

/// A reference picture of whole macroblocks, with one stride for U and V.
#[derive(Debug, Clone, Copy)]
pub struct ReferencePlanes<'a> {
    /// Luma, row after row.
    pub y: &'a [u8],
    /// U, row after row.
    pub u: &'a [u8],
    /// V, row after row.
    pub v: &'a [u8],
    /// Bytes from one row of luma to the next.
    pub y_stride: usize,
    /// Bytes from one row of U to the next, and of V.
    pub uv_stride: usize,
    /// Macroblocks across.
    pub mb_cols: usize,
    /// Macroblocks down.
    pub mb_rows: usize,
}

impl<'a> From<ReferencePlanes<'a>> for Picture<'a> {
    fn from(planes: ReferencePlanes<'a>) -> Picture<'a> {
        let ReferencePlanes { y, u, v, y_stride, uv_stride, mb_cols, mb_rows } = planes;
        Picture { y, u, v, y_stride, u_stride: uv_stride, v_stride: uv_stride, mb_cols, mb_rows }
    }
}

/// Why [`predict_inter_mb_whole_pixel`] or [`reconstruct_inter_mb_whole_pixel`] gave no samples.
#[derive(Debug, Clone, Copy, PartialEq, Eq)]
#[non_exhaustive]
pub enum MotionCompError {
    /// A vector has a fraction of a pixel: number 8 in the library's table.
    SubPixelNotSupported,
}

impl fmt::Display for MotionCompError {
    fn fmt(&self, f: &mut fmt::Formatter<'_>) -> fmt::Result {
        f.write_str("a vector has a fraction of a pixel (threshowl 8)")
    }
}

impl std::error::Error for MotionCompError {}

// ---- vectors

/// A luma vector in eighths of a pixel: doubled, in sixteen bits that wrap.
///
/// ```
/// use threshowl::{motion_comp::stored_luma_mv, motion_vector::Mv};
/// assert_eq!(stored_luma_mv(Mv { row: -3, col: 16384 }), Mv { row: -6, col: -32768 });
/// ```
pub fn stored_luma_mv(mv: Mv) -> Mv {
    Mv { row: mv.row.wrapping_mul(2), col: mv.col.wrapping_mul(2) }
}

/// The eighth of a sum, to the nearest, halves away from zero.
fn nearest8(sum: i32) -> i16 {
    (if sum >= 0 { (sum + 4) >> 3 } else { -((4 - sum) >> 3) }) as i16
}

/// The chroma vector of a whole macroblock, from its luma vector in eighths ([`stored_luma_mv`]).
///
/// ```
/// use threshowl::{motion_comp::chroma_mv, motion_vector::Mv};
/// assert_eq!(chroma_mv(Mv { row: -6, col: 10 }), Mv { row: -3, col: 5 });
/// ```
pub fn chroma_mv(luma_mv: Mv) -> Mv {
    let four = |component: i16| nearest8(4 * i32::from(component));
    Mv { row: four(luma_mv.row), col: four(luma_mv.col) }
}

/// A vector in eighths, lowered to whole pixels.
///
/// ```
/// use threshowl::{motion_comp::apply_full_pixel, motion_vector::Mv};
/// assert_eq!(apply_full_pixel(Mv { row: -1, col: 15 }), Mv { row: -8, col: 8 });
/// ```
pub fn apply_full_pixel(mv: Mv) -> Mv {
    Mv { row: mv.row & !7, col: mv.col & !7 }
}

/// Whether a vector in eighths has no fraction.
///
/// ```
/// use threshowl::{motion_comp::whole_pixel_fraction_is_zero, motion_vector::Mv};
/// assert!(whole_pixel_fraction_is_zero(Mv { row: -8, col: 16 }));
/// assert!(!whole_pixel_fraction_is_zero(Mv { row: 0, col: 1 }));
/// ```
pub fn whole_pixel_fraction_is_zero(mv: Mv) -> bool {
    (mv.row | mv.col) & 7 == 0
}

/// Which 4x4 block of chroma the luma block `b` (0 to 15, in raster order) lies in.
///
/// ```
/// use threshowl::motion_comp::chroma_idx_for_luma_subblock;
/// assert_eq!([0, 3, 12, 15].map(chroma_idx_for_luma_subblock), [0, 1, 2, 3]);
/// ```
pub fn chroma_idx_for_luma_subblock(b: usize) -> usize {
    (b >> 1 & 1) + (b >> 2 & 2)
}

/// The chroma vectors of a split macroblock, in eighths, from its luma vectors as they are coded.
///
/// ```
/// use threshowl::{motion_comp::split_chroma_mvs, motion_vector::Mv};
/// let mut mvs = [Mv::default(); 16];
/// mvs[5] = Mv { row: -2, col: 1 }; // four of row -4 make half an eighth, away from zero
/// assert_eq!(split_chroma_mvs(&mvs)[0], Mv { row: -1, col: 0 });
/// ```
pub fn split_chroma_mvs(split_luma_mvs: &[Mv; 16]) -> [Mv; 4] {
    let mut sums = [(0, 0); 4];
    for (b, mv) in split_luma_mvs.iter().enumerate() {
        let (row, col) = &mut sums[chroma_idx_for_luma_subblock(b)];
        *row += 2 * i32::from(mv.row);
        *col += 2 * i32::from(mv.col);
    }
    sums.map(|(row, col)| Mv { row: nearest8(row), col: nearest8(col) })
}

// ---- predictions

fn named(filters: &[[i32; 6]; 8]) -> Result<FilterSet, Refusal> {
    FilterSet::of(filters).ok_or(Refusal::BadFilter)
}

fn lent(mv: Mv) -> threshowl::motion_vector::Mv {
    threshowl::motion_vector::Mv { row: mv.row, col: mv.col }
}

fn samples(answer: Result<threshowl::reconstruct::ReconstructedMb, Refusal>) -> ReconstructedMb {
    let mb = answer.unwrap_or_else(|refusal| panic!("{refusal}"));
    ReconstructedMb { y: mb.y, u: mb.u, v: mb.v }
}

/// The prediction of a macroblock with one vector, in quarters of a luma pixel.
///
/// `filters` is one of the two tables ([`FilterSet::taps`]). Where `full_pixel` is set, luma and chroma vectors are lowered.
///
/// ```
/// use threshowl::motion_comp::{predict_inter_mb, FilterSet, ReferencePlanes};
/// use threshowl::motion_vector::Mv;
/// # let luma: Vec<u8> = (0..=255).collect();
/// # let chroma = [50; 64];
/// # let reference =
/// #     ReferencePlanes { y: &luma, u: &chroma, v: &chroma, y_stride: 16, uv_stride: 8, mb_cols: 1, mb_rows: 1 };
/// let mb = predict_inter_mb(&reference, 0, 0, Mv { row: 0, col: 4 }, false, FilterSet::Sixtap.taps());
/// assert_eq!((mb.y[0], mb.y[15]), (1, 15));
/// ```
pub fn predict_inter_mb(
    reference: &ReferencePlanes<'_>,
    mb_col: usize,
    mb_row: usize,
    luma_mv: Mv,
    full_pixel: bool,
    filters: &[[i32; 6]; 8],
) -> ReconstructedMb {
    let picture = Picture::from(*reference);
    let at = Position { mb_col, mb_row };
    samples(named(filters).and_then(|set| prediction::predict_whole(&picture, at, lent(luma_mv), set, full_pixel)))
}

/// The prediction of a macroblock with a vector for each 4x4 block of luma, in quarters of a luma pixel.
///
/// `filters` and `full_pixel` are as for [`predict_inter_mb`].
///
/// ```
/// use threshowl::motion_comp::{predict_split_mv, FilterSet, ReferencePlanes};
/// use threshowl::motion_vector::Mv;
/// # let luma: Vec<u8> = (0..=255).collect();
/// # let chroma = [50; 64];
/// # let reference =
/// #     ReferencePlanes { y: &luma, u: &chroma, v: &chroma, y_stride: 16, uv_stride: 8, mb_cols: 1, mb_rows: 1 };
/// let mut mvs = [Mv::default(); 16];
/// mvs[0] = Mv { row: 4, col: 0 };
/// let mb = predict_split_mv(&reference, 0, 0, &mvs, false, FilterSet::Bilinear.taps());
/// assert_eq!((mb.y[0], mb.y[4]), (16, 4));
/// ```
pub fn predict_split_mv(
    reference: &ReferencePlanes<'_>,
    mb_col: usize,
    mb_row: usize,
    split_luma_mvs: &[Mv; 16],
    full_pixel: bool,
    filters: &[[i32; 6]; 8],
) -> ReconstructedMb {
    let picture = Picture::from(*reference);
    let at = Position { mb_col, mb_row };
    let mvs = split_luma_mvs.map(lent);
    samples(named(filters).and_then(|set| prediction::predict_split(&picture, at, &mvs, set, full_pixel)))
}

/// The prediction of a macroblock with one vector that has no fraction once it is made ready for luma and for chroma; with any
/// other, an error.
///
/// ```
/// use threshowl::motion_comp::{predict_inter_mb_whole_pixel, MotionCompError, ReferencePlanes};
/// use threshowl::motion_vector::Mv;
/// # let luma: Vec<u8> = (0..=255).collect();
/// # let chroma = [50; 64];
/// # let reference =
/// #     ReferencePlanes { y: &luma, u: &chroma, v: &chroma, y_stride: 16, uv_stride: 8, mb_cols: 1, mb_rows: 1 };
/// assert!(predict_inter_mb_whole_pixel(&reference, 0, 0, Mv { row: 8, col: 0 }, false).is_ok());
/// let half = predict_inter_mb_whole_pixel(&reference, 0, 0, Mv { row: 2, col: 0 }, false);
/// assert_eq!(half, Err(MotionCompError::SubPixelNotSupported));
/// ```
pub fn predict_inter_mb_whole_pixel(
    reference: &ReferencePlanes<'_>,
    mb_col: usize,
    mb_row: usize,
    luma_mv: Mv,
    full_pixel: bool,
) -> Result<ReconstructedMb, MotionCompError> {
    at_whole_pixels(luma_mv, full_pixel)?;
    Ok(predict_inter_mb(reference, mb_col, mb_row, luma_mv, full_pixel, &SIXTAP_FILTERS))
}

/// The original's test, which comes before it looks at the planes.
fn at_whole_pixels(luma_mv: Mv, full_pixel: bool) -> Result<(), MotionCompError> {
    let luma = stored_luma_mv(luma_mv);
    let whole = [luma, chroma_mv(luma)].into_iter().all(whole_pixel_fraction_is_zero);
    if whole || full_pixel {
        Ok(())
    } else {
        Err(MotionCompError::SubPixelNotSupported)
    }
}

// ---- finished macroblocks

/// The blocks of all planes one after the other.
fn listed<const N: usize>(planes: &[&[[i16; 16]]]) -> [i16; N] {
    let mut numbers = [0; N];
    for (sixteen, block) in numbers.chunks_exact_mut(16).zip(planes.iter().copied().flatten()) {
        sixteen.copy_from_slice(block);
    }
    numbers
}

/// [`predict_inter_mb`] with the residue of dequantised coefficients added; where `mb_skip_coeff` is set, the prediction itself.
///
/// What Y2 transforms to stands in for the first coefficient of each Y block.
///
/// ```
/// use threshowl::motion_comp::{reconstruct_inter_mb, FilterSet, ReferencePlanes};
/// use threshowl::motion_vector::Mv;
/// # let (luma, chroma) = ([100; 256], [50; 64]);
/// # let reference =
/// #     ReferencePlanes { y: &luma, u: &chroma, v: &chroma, y_stride: 16, uv_stride: 8, mb_cols: 1, mb_rows: 1 };
/// let (mut y2, y, mut u, v) = ([0; 16], [[0; 16]; 16], [[0; 16]; 4], [[0; 16]; 4]);
/// y2[0] = 64; // 8 for each block of Y, which adds 1 to each of its samples
/// u[3][0] = -80;
/// let taps = FilterSet::Sixtap.taps();
/// let mv = Mv { row: -3, col: 5 };
/// let mb = reconstruct_inter_mb(&reference, 0, 0, mv, false, taps, false, &y2, &y, &u, &v);
/// assert_eq!((mb.y, mb.u[0], mb.u[63], mb.v[63]), ([101; 256], 50, 40, 50));
/// let skipped = reconstruct_inter_mb(&reference, 0, 0, mv, false, taps, true, &y2, &y, &u, &v);
/// assert_eq!((skipped.y, skipped.u), (luma, chroma));
/// ```
#[allow(clippy::too_many_arguments)] // the original's
pub fn reconstruct_inter_mb(
    reference: &ReferencePlanes<'_>,
    mb_col: usize,
    mb_row: usize,
    luma_mv: Mv,
    full_pixel: bool,
    filters: &[[i32; 6]; 8],
    mb_skip_coeff: bool,
    y2_coeffs_dequant: &[i16; 16],
    y_coeffs_dequant: &[[i16; 16]; 16],
    u_coeffs_dequant: &[[i16; 16]; 4],
    v_coeffs_dequant: &[[i16; 16]; 4],
) -> ReconstructedMb {
    let picture = Picture::from(*reference);
    let at = Position { mb_col, mb_row };
    let numbers: [i16; COEFFICIENTS] =
        listed(&[slice::from_ref(y2_coeffs_dequant), y_coeffs_dequant, u_coeffs_dequant, v_coeffs_dequant]);
    samples(
        named(filters).and_then(|set| {
            reconstruction::reconstruct_whole(&picture, at, lent(luma_mv), set, full_pixel, mb_skip_coeff, &numbers)
        }),
    )
}

/// [`predict_inter_mb_whole_pixel`] with the residue added, as [`reconstruct_inter_mb`] adds it.
///
/// ```
/// use threshowl::motion_comp::{reconstruct_inter_mb_whole_pixel, MotionCompError, ReferencePlanes};
/// use threshowl::motion_vector::Mv;
/// # let luma: Vec<u8> = (0..=255).collect();
/// # let chroma = [50; 64];
/// # let reference =
/// #     ReferencePlanes { y: &luma, u: &chroma, v: &chroma, y_stride: 16, uv_stride: 8, mb_cols: 1, mb_rows: 1 };
/// let (y2, y, u, mut v) = ([0; 16], [[0; 16]; 16], [[0; 16]; 4], [[0; 16]; 4]);
/// v[0][0] = 400;
/// let finish = |mv| reconstruct_inter_mb_whole_pixel(&reference, 0, 0, mv, false, false, &y2, &y, &u, &v);
/// let mb = finish(Mv { row: 0, col: 8 }).unwrap();
/// assert_eq!((mb.y[0], mb.v[0], mb.v[4]), (2, 100, 50));
/// assert_eq!(finish(Mv { row: 0, col: 1 }), Err(MotionCompError::SubPixelNotSupported));
/// ```
#[allow(clippy::too_many_arguments)] // the original's
pub fn reconstruct_inter_mb_whole_pixel(
    reference: &ReferencePlanes<'_>,
    mb_col: usize,
    mb_row: usize,
    luma_mv: Mv,
    full_pixel: bool,
    mb_skip_coeff: bool,
    y2_coeffs_dequant: &[i16; 16],
    y_coeffs_dequant: &[[i16; 16]; 16],
    u_coeffs_dequant: &[[i16; 16]; 4],
    v_coeffs_dequant: &[[i16; 16]; 4],
) -> Result<ReconstructedMb, MotionCompError> {
    at_whole_pixels(luma_mv, full_pixel)?;
    let picture = Picture::from(*reference);
    let at = Position { mb_col, mb_row };
    let numbers: [i16; COEFFICIENTS] =
        listed(&[slice::from_ref(y2_coeffs_dequant), y_coeffs_dequant, u_coeffs_dequant, v_coeffs_dequant]);
    let mv = lent(luma_mv);
    Ok(samples(reconstruction::reconstruct_whole_pixel(&picture, at, mv, full_pixel, mb_skip_coeff, &numbers)))
}

/// [`predict_split_mv`] with the residue of dequantised coefficients added; where `mb_skip_coeff` is set, the prediction itself.
///
/// There is no Y2: each block has its own first coefficient.
///
/// ```
/// use threshowl::motion_comp::{reconstruct_split_mv_mb, FilterSet, ReferencePlanes};
/// use threshowl::motion_vector::Mv;
/// # let (luma, chroma) = ([100; 256], [50; 64]);
/// # let reference =
/// #     ReferencePlanes { y: &luma, u: &chroma, v: &chroma, y_stride: 16, uv_stride: 8, mb_cols: 1, mb_rows: 1 };
/// let (mut y, u, v) = ([[0; 16]; 16], [[0; 16]; 4], [[0; 16]; 4]);
/// y[5][0] = 4000; // 500 more, which clamps
/// let taps = FilterSet::Bilinear.taps();
/// let mb = reconstruct_split_mv_mb(&reference, 0, 0, &[Mv::default(); 16], false, taps, false, &y, &u, &v);
/// assert_eq!((mb.y[4 * 16 + 3], mb.y[4 * 16 + 4]), (100, 255));
/// ```
#[allow(clippy::too_many_arguments)] // the original's
pub fn reconstruct_split_mv_mb(
    reference: &ReferencePlanes<'_>,
    mb_col: usize,
    mb_row: usize,
    split_luma_mvs: &[Mv; 16],
    full_pixel: bool,
    filters: &[[i32; 6]; 8],
    mb_skip_coeff: bool,
    y_coeffs_dequant: &[[i16; 16]; 16],
    u_coeffs_dequant: &[[i16; 16]; 4],
    v_coeffs_dequant: &[[i16; 16]; 4],
) -> ReconstructedMb {
    let picture = Picture::from(*reference);
    let at = Position { mb_col, mb_row };
    let mvs = split_luma_mvs.map(lent);
    let numbers: [i16; SPLIT_COEFFICIENTS] = listed(&[y_coeffs_dequant, u_coeffs_dequant, v_coeffs_dequant]);
    samples(
        named(filters)
            .and_then(|set| reconstruction::reconstruct_split(&picture, at, &mvs, set, full_pixel, mb_skip_coeff, &numbers)),
    )
}
