//! Prediction with refusals as values: whole, split, merging and by quarters, with a report of what it took, and by a frame's version.
//!
//! A [`Picture`] has a stride for each plane. The numbers 5, 6 and 7 of the C header are never given: the types rule them out.

use crate::ffi;
use crate::motion_vector::Mv;
use crate::reconstruct::ReconstructedMb;
use crate::tables::FilterSet;
use crate::Refusal;

/// A picture to predict from, of `mb_cols` by `mb_rows` macroblocks.
///
/// Y has 16 by 16 samples a macroblock, U and V 8 by 8. A stride is the bytes from one row to the next, at least the plane's width
/// and at most 32768; a plane needs (height - 1) * stride + width bytes. What stands between rows and after them has no part in
/// the answer, and a sample sought outside the picture is that of the nearest edge.
#[derive(Debug, Clone, Copy)]
pub struct Picture<'a> {
    /// Luma, row after row.
    pub y: &'a [u8],
    /// U, row after row.
    pub u: &'a [u8],
    /// V, row after row.
    pub v: &'a [u8],
    /// Bytes from one row of `y` to the next.
    pub y_stride: usize,
    /// Bytes from one row of `u` to the next.
    pub u_stride: usize,
    /// Bytes from one row of `v` to the next.
    pub v_stride: usize,
    /// Macroblocks across.
    pub mb_cols: usize,
    /// Macroblocks down.
    pub mb_rows: usize,
}

/// Which macroblock is predicted, counted from 0.
#[derive(Debug, Clone, Copy, PartialEq, Eq)]
pub struct Position {
    /// Across.
    pub mb_col: usize,
    /// Down.
    pub mb_row: usize,
}

/// How version 3 lowers vectors to whole pixels; in all other versions both read alike.
#[derive(Debug, Clone, Copy, PartialEq, Eq)]
pub enum FullPixel {
    /// Luma and chroma vectors, as the original does.
    LumaAndChroma,
    /// Chroma vectors alone, as the reference decoder of RFC 6386 does: the choice for streams of version 3.
    ChromaAlone,
}

/// Sixteen vectors as the C functions take them: row, then column, each little-endian.
pub(crate) fn bytes_of(mvs: &[Mv; 16]) -> [u8; 64] {
    let mut bytes = [0; 64];
    for (four, mv) in bytes.chunks_exact_mut(4).zip(mvs) {
        four[..2].copy_from_slice(&mv.row.to_le_bytes());
        four[2..].copy_from_slice(&mv.col.to_le_bytes());
    }
    bytes
}

/// Hands 384 bytes to a call, and gives back what it wrote.
pub(crate) fn written(call: impl FnOnce(&mut [u8; 384]) -> u32) -> Result<ReconstructedMb, Refusal> {
    let mut out = [0; 384];
    Refusal::done(call(&mut out))?;
    let mut mb = ReconstructedMb::default();
    mb.y.copy_from_slice(&out[..256]);
    mb.u.copy_from_slice(&out[256..320]);
    mb.v.copy_from_slice(&out[320..]);
    Ok(mb)
}

/// One vector for the whole macroblock.
///
/// Where `full_pixel` is set, luma and chroma vectors are lowered to whole pixels. Refuses with 1 to 4.
///
/// ```
/// use threshowl::motion_vector::Mv;
/// use threshowl::prediction::{predict_whole, Picture, Position};
/// use threshowl::tables::FilterSet;
/// use threshowl::Refusal;
///
/// let luma: Vec<u8> = (0..=255).collect();
/// let chroma = [50; 64];
/// let picture = Picture {
///     y: &luma, u: &chroma, v: &chroma, y_stride: 16, u_stride: 8, v_stride: 8, mb_cols: 1, mb_rows: 1,
/// };
/// let first = Position { mb_col: 0, mb_row: 0 };
/// let right = Mv { row: 0, col: 4 };
/// let mb = predict_whole(&picture, first, right, FilterSet::Sixtap, false)?;
/// assert_eq!((mb.y[0], mb.y[14], mb.y[15]), (1, 15, 15));
///
/// let outside = Position { mb_col: 1, mb_row: 0 };
/// assert_eq!(predict_whole(&picture, outside, right, FilterSet::Sixtap, false), Err(Refusal::OutsidePicture));
/// # Ok::<(), Refusal>(())
/// ```
pub fn predict_whole(
    picture: &Picture<'_>,
    at: Position,
    mv: Mv,
    filter: FilterSet,
    full_pixel: bool,
) -> Result<ReconstructedMb, Refusal> {
    written(|out| ffi::whole(picture, at, mv, [filter.code(), full_pixel.into()], out))
}

/// A vector for each 4x4 block of luma, in raster order; a 4x4 block of chroma takes the average of its four.
///
/// Refuses with 1 to 4.
///
/// ```
/// # use threshowl::motion_vector::Mv;
/// # use threshowl::prediction::{predict_split, Picture, Position};
/// # use threshowl::tables::FilterSet;
/// # let luma: Vec<u8> = (0..=255).collect();
/// # let chroma = [50; 64];
/// # let picture = Picture {
/// #     y: &luma, u: &chroma, v: &chroma, y_stride: 16, u_stride: 8, v_stride: 8, mb_cols: 1, mb_rows: 1,
/// # };
/// # let first = Position { mb_col: 0, mb_row: 0 };
/// let mut mvs = [Mv::default(); 16];
/// mvs[5] = Mv { row: 4, col: 0 }; // the block at row 4, column 4 comes from one pixel below
/// let mb = predict_split(&picture, first, &mvs, FilterSet::Sixtap, false)?;
/// assert_eq!((mb.y[4 * 16], mb.y[4 * 16 + 4]), (64, 84));
/// # Ok::<(), threshowl::Refusal>(())
/// ```
pub fn predict_split(
    picture: &Picture<'_>,
    at: Position,
    mvs: &[Mv; 16],
    filter: FilterSet,
    full_pixel: bool,
) -> Result<ReconstructedMb, Refusal> {
    written(|out| ffi::split(picture, at, &bytes_of(mvs), [filter.code(), full_pixel.into()], out))
}

/// What [`predict_split`] gives on every input, sooner where the sixteen vectors are one that lies in -16384..=16383 both ways:
/// there it predicts once, and no picture could tell. Refuses with 1 to 4.
///
/// ```
/// # use threshowl::motion_vector::Mv;
/// # use threshowl::prediction::{predict_merging, predict_split, Picture, Position};
/// # use threshowl::tables::FilterSet;
/// # let luma: Vec<u8> = (0..=255).collect();
/// # let chroma: Vec<u8> = (0..64).collect();
/// # let picture = Picture {
/// #     y: &luma, u: &chroma, v: &chroma, y_stride: 16, u_stride: 8, v_stride: 8, mb_cols: 1, mb_rows: 1,
/// # };
/// # let first = Position { mb_col: 0, mb_row: 0 };
/// let mvs = [Mv { row: 0, col: 16384 }; 16]; // just outside: whole prediction would differ in chroma
/// let merged = predict_merging(&picture, first, &mvs, FilterSet::Sixtap, false)?;
/// assert_eq!(merged, predict_split(&picture, first, &mvs, FilterSet::Sixtap, false)?);
/// # Ok::<(), threshowl::Refusal>(())
/// ```
pub fn predict_merging(
    picture: &Picture<'_>,
    at: Position,
    mvs: &[Mv; 16],
    filter: FilterSet,
    full_pixel: bool,
) -> Result<ReconstructedMb, Refusal> {
    written(|out| ffi::merging(picture, at, &bytes_of(mvs), [filter.code(), full_pixel.into()], out))
}

/// What [`predict_split`] gives on every input, sooner where vectors are equal: luma is predicted in one go where all sixteen are
/// the same, else each quarter of 8 by 8 samples whose four are, else by 4x4 blocks. Chroma is predicted as split does it, so that
/// every vector is merged. Refuses with 1 to 4.
///
/// ```
/// # use threshowl::motion_vector::Mv;
/// # use threshowl::prediction::{predict_quarters, predict_split, Picture, Position};
/// # use threshowl::tables::FilterSet;
/// # let luma: Vec<u8> = (0..=255).collect();
/// # let chroma: Vec<u8> = (0..64).collect();
/// # let picture = Picture {
/// #     y: &luma, u: &chroma, v: &chroma, y_stride: 16, u_stride: 8, v_stride: 8, mb_cols: 1, mb_rows: 1,
/// # };
/// # let first = Position { mb_col: 0, mb_row: 0 };
/// let mut mvs = [Mv { row: 3, col: -5 }; 16];
/// mvs[15] = Mv { row: -7, col: 2 }; // three quarters are merged, and the last goes by 4x4 blocks
/// let merged = predict_quarters(&picture, first, &mvs, FilterSet::Sixtap, false)?;
/// assert_eq!(merged, predict_split(&picture, first, &mvs, FilterSet::Sixtap, false)?);
/// # Ok::<(), threshowl::Refusal>(())
/// ```
pub fn predict_quarters(
    picture: &Picture<'_>,
    at: Position,
    mvs: &[Mv; 16],
    filter: FilterSet,
    full_pixel: bool,
) -> Result<ReconstructedMb, Refusal> {
    written(|out| ffi::quarters(picture, at, &bytes_of(mvs), [filter.code(), full_pixel.into()], out))
}

/// Which prediction a report is of.
#[derive(Debug, Clone, Copy, PartialEq, Eq, Hash)]
pub enum Kind {
    /// [`predict_whole`], by the first vector.
    Whole,
    /// [`predict_split`].
    Split,
    /// [`predict_merging`].
    Merging,
    /// [`predict_quarters`].
    Quarters,
}

/// A prediction, and what it took.
#[derive(Debug, Clone, PartialEq, Eq)]
pub struct Report {
    /// The samples.
    pub mb: ReconstructedMb,
    /// How many samples were fetched from the three planes, one that is fetched twice counted twice.
    pub fetched: u64,
    /// How many of its samples were clipped.
    pub clipped: Clipped,
}

/// Clipped samples: those whose last filter step came to less than 0 or to more than 255 before it was clamped.
///
/// Of one macroblock, or of as many as are added up:
///
/// ```
/// use threshowl::prediction::Clipped;
/// use threshowl::Refusal;
/// let mut panel = Clipped::default();
/// panel.add(Clipped { low: 3, high: 250 })?;
/// panel.add(Clipped { low: 0, high: 6 })?;
/// assert_eq!(panel, Clipped { low: 3, high: 256 });
/// assert_eq!(panel.add(Clipped { low: u64::MAX, high: 1 }), Err(Refusal::FullTotals));
/// assert_eq!(panel, Clipped { low: 3, high: 256 }); // both as they were
/// # Ok::<(), Refusal>(())
/// ```
#[derive(Debug, Clone, Copy, Default, PartialEq, Eq)]
pub struct Clipped {
    /// Below 0.
    pub low: u64,
    /// Above 255.
    pub high: u64,
}

impl Clipped {
    /// Adds a macroblock's. Refuses with 16 where either total would leave 64 bits, and leaves both as they were.
    pub fn add(&mut self, mb: Clipped) -> Result<(), Refusal> {
        Refusal::done(ffi::add_clipped(self, mb))
    }
}

/// A prediction with a report: a block of n samples a side fetches n * n where its vector has no fraction, else (n + 5) * (n + 5).
///
/// Whole fetches 384 to 779, split 384 to 1944, the other two no more than split, and with `full_pixel` all of them 384. Under
/// bilinear, and with `full_pixel`, nothing is clipped; merging and by quarters clip what split does. Refuses with 1 to 4.
///
/// ```
/// # use threshowl::motion_vector::Mv;
/// # use threshowl::prediction::{predict_report, Kind, Picture, Position};
/// # use threshowl::tables::FilterSet;
/// # let luma: Vec<u8> = (0..=255).collect();
/// # let chroma: Vec<u8> = (0..64).collect();
/// # let picture = Picture {
/// #     y: &luma, u: &chroma, v: &chroma, y_stride: 16, u_stride: 8, v_stride: 8, mb_cols: 1, mb_rows: 1,
/// # };
/// # let first = Position { mb_col: 0, mb_row: 0 };
/// let mvs = [Mv { row: 3, col: -5 }; 16];
/// let split = predict_report(&picture, first, &mvs, Kind::Split, FilterSet::Sixtap, false)?;
/// let merged = predict_report(&picture, first, &mvs, Kind::Merging, FilterSet::Sixtap, false)?;
/// assert_eq!((split.fetched, merged.fetched), (1944, 779));
/// assert_eq!(split.mb, merged.mb);
/// # Ok::<(), threshowl::Refusal>(())
/// ```
pub fn predict_report(
    picture: &Picture<'_>,
    at: Position,
    mvs: &[Mv; 16],
    kind: Kind,
    filter: FilterSet,
    full_pixel: bool,
) -> Result<Report, Refusal> {
    let (mut fetched, mut clipped) = (0, Clipped::default());
    let codes = [kind as u8, filter.code(), full_pixel.into()];
    let mb = written(|out| ffi::report(picture, at, &bytes_of(mvs), codes, &mut fetched, &mut clipped, out))?;
    Ok(Report { mb, fetched, clipped })
}

/// Whole prediction with the table and the rule of a frame's version, as it stands in the frame's tag.
///
/// Refuses with 10 for a version above 3, whatever else is at fault, else with 1 to 4.
///
/// ```
/// # use threshowl::motion_vector::Mv;
/// # use threshowl::prediction::{predict_whole_by_version, FullPixel, Picture, Position};
/// # use threshowl::Refusal;
/// # let mut luma = [0; 256];
/// # let chroma = [0; 64];
/// luma[0] = 1; // the smallest picture that tells the two readings of version 3
/// let picture = Picture {
///     y: &luma, u: &chroma, v: &chroma, y_stride: 16, u_stride: 8, v_stride: 8, mb_cols: 1, mb_rows: 1,
/// };
/// let first = Position { mb_col: 0, mb_row: 0 };
/// let mv = Mv { row: 0, col: -1 };
/// let original = predict_whole_by_version(&picture, first, mv, 3, FullPixel::LumaAndChroma)?;
/// let standard = predict_whole_by_version(&picture, first, mv, 3, FullPixel::ChromaAlone)?;
/// assert_eq!((original.y[1], standard.y[1]), (1, 0));
/// let reserved = predict_whole_by_version(&picture, first, mv, 4, FullPixel::ChromaAlone);
/// assert_eq!(reserved, Err(Refusal::ReservedVersion));
/// # Ok::<(), Refusal>(())
/// ```
pub fn predict_whole_by_version(
    picture: &Picture<'_>,
    at: Position,
    mv: Mv,
    version: u8,
    full_pixel: FullPixel,
) -> Result<ReconstructedMb, Refusal> {
    written(|out| ffi::whole_by_version(picture, at, mv, [version, standard(full_pixel)], out))
}

/// Split prediction with the table and the rule of a frame's version. Refuses as [`predict_whole_by_version`] does.
///
/// ```
/// # use threshowl::motion_vector::Mv;
/// # use threshowl::prediction::{predict_split, predict_split_by_version, FullPixel, Picture, Position};
/// # use threshowl::tables::FilterSet;
/// # let luma: Vec<u8> = (0..=255).collect();
/// # let chroma: Vec<u8> = (0..64).collect();
/// # let picture = Picture {
/// #     y: &luma, u: &chroma, v: &chroma, y_stride: 16, u_stride: 8, v_stride: 8, mb_cols: 1, mb_rows: 1,
/// # };
/// # let first = Position { mb_col: 0, mb_row: 0 };
/// let mvs = [Mv { row: 3, col: -5 }; 16];
/// let by_version = predict_split_by_version(&picture, first, &mvs, 2, FullPixel::ChromaAlone)?;
/// assert_eq!(by_version, predict_split(&picture, first, &mvs, FilterSet::Bilinear, false)?);
/// # Ok::<(), threshowl::Refusal>(())
/// ```
pub fn predict_split_by_version(
    picture: &Picture<'_>,
    at: Position,
    mvs: &[Mv; 16],
    version: u8,
    full_pixel: FullPixel,
) -> Result<ReconstructedMb, Refusal> {
    written(|out| ffi::split_by_version(picture, at, &bytes_of(mvs), [version, standard(full_pixel)], out))
}

fn standard(full_pixel: FullPixel) -> u8 {
    match full_pixel {
        FullPixel::LumaAndChroma => 0,
        FullPixel::ChromaAlone => 1,
    }
}
