//! A whole frame at once: three references, an [`Order`] for each macroblock, and the planes of a frame to write.
//!
//! Each macroblock is what [`predict_whole`](crate::prediction::predict_whole) or
//! [`predict_split`](crate::prediction::predict_split) gives for its order, written straight to its rows; every byte between width
//! and stride and after the last row is as it was.

use crate::ffi;
use crate::motion_comp::RefFrame;
use crate::motion_vector::Mv;
use crate::prediction::bytes_of;
use crate::tables::FilterSet;
use crate::Refusal;

/// The bytes of an order.
pub const ORDER_LEN: usize = 66;

/// The planes of a picture, row after row.
#[derive(Debug, Clone, Copy)]
pub struct Planes<'a> {
    /// Luma.
    pub y: &'a [u8],
    /// U.
    pub u: &'a [u8],
    /// V.
    pub v: &'a [u8],
}

/// Three pictures of one size and with the same strides; they may be the same planes.
///
/// Sizes, strides and lengths are limited as those of a [`Picture`](crate::prediction::Picture).
#[derive(Debug, Clone, Copy)]
pub struct References<'a> {
    /// The one before.
    pub last: Planes<'a>,
    /// The golden frame.
    pub golden: Planes<'a>,
    /// The altref frame.
    pub altref: Planes<'a>,
    /// Bytes from one row of Y to the next.
    pub y_stride: usize,
    /// Bytes from one row of U to the next.
    pub u_stride: usize,
    /// Bytes from one row of V to the next.
    pub v_stride: usize,
    /// Macroblocks across.
    pub mb_cols: usize,
    /// Macroblocks down.
    pub mb_rows: usize,
}

/// The planes that a frame is written to, with strides of their own.
#[derive(Debug)]
pub struct Frame<'a> {
    /// Luma.
    pub y: &'a mut [u8],
    /// U.
    pub u: &'a mut [u8],
    /// V.
    pub v: &'a mut [u8],
    /// Bytes from one row of `y` to the next.
    pub y_stride: usize,
    /// Bytes from one row of `u` to the next.
    pub u_stride: usize,
    /// Bytes from one row of `v` to the next.
    pub v_stride: usize,
}

/// How a macroblock is predicted.
#[derive(Debug, Clone, Copy, PartialEq, Eq)]
pub enum Order {
    /// One vector for the macroblock.
    Whole(RefFrame, Mv),
    /// A vector for each 4x4 block of luma, in raster order.
    Split(RefFrame, [Mv; 16]),
}

impl Order {
    /// As [`predict_frame`] takes it: the code of the reference, that of the kind, and sixteen vectors.
    ///
    /// ```
    /// use threshowl::frame::Order;
    /// use threshowl::motion_comp::RefFrame;
    /// use threshowl::motion_vector::Mv;
    ///
    /// let bytes = Order::Whole(RefFrame::Golden, Mv { row: -1, col: 258 }).bytes();
    /// assert_eq!(bytes[..6], [1, 0, 255, 255, 2, 1]);
    /// ```
    pub fn bytes(&self) -> [u8; ORDER_LEN] {
        let (reference, kind, mvs) = match self {
            Order::Whole(reference, mv) => (reference, 0, &[*mv; 16]),
            Order::Split(reference, mvs) => (reference, 1, mvs),
        };
        let mut bytes = [0; ORDER_LEN];
        bytes[0] = match reference {
            RefFrame::Last => 0,
            RefFrame::Golden => 1,
            RefFrame::AltRef => 2,
        };
        bytes[1] = kind;
        bytes[2..].copy_from_slice(&bytes_of(mvs));
        bytes
    }
}

/// Predicts every macroblock of a frame. `orders` holds [`ORDER_LEN`] bytes for each, row after row.
///
/// Refuses with 1, 2 or 3 for the references, 7 for a plane of `frame` that is too short or has a bad stride, then 9 for orders of
/// another length or with a code that is none; then nothing is written.
///
/// ```
/// use threshowl::frame::{predict_frame, Frame, Order, Planes, References};
/// use threshowl::motion_comp::RefFrame;
/// use threshowl::motion_vector::Mv;
/// use threshowl::tables::FilterSet;
/// use threshowl::Refusal;
///
/// let (luma, chroma): (Vec<u8>, _) = ((0..=255).collect(), [50; 64]);
/// let (dark, grey) = (Planes { y: &[0; 256], u: &chroma, v: &chroma }, Planes { y: &luma, u: &chroma, v: &chroma });
/// let references = References {
///     last: dark, golden: grey, altref: dark, y_stride: 16, u_stride: 8, v_stride: 8, mb_cols: 1, mb_rows: 1,
/// };
/// let (mut y, mut u, mut v) = ([7; 16 * 20], [7; 64], [7; 64]);
/// let mut frame = Frame { y: &mut y, u: &mut u, v: &mut v, y_stride: 20, u_stride: 8, v_stride: 8 };
///
/// let right = Order::Whole(RefFrame::Golden, Mv { row: 0, col: 4 });
/// predict_frame(&references, &right.bytes(), FilterSet::Sixtap, false, &mut frame)?;
/// assert_eq!(frame.y[..17], [1, 2, 3, 4, 5, 6, 7, 8, 9, 10, 11, 12, 13, 14, 15, 15, 7]);
///
/// let short = predict_frame(&references, &right.bytes()[1..], FilterSet::Sixtap, false, &mut frame);
/// assert_eq!(short, Err(Refusal::BadOrders));
/// # Ok::<(), Refusal>(())
/// ```
pub fn predict_frame(
    references: &References<'_>,
    orders: &[u8],
    filter: FilterSet,
    full_pixel: bool,
    frame: &mut Frame<'_>,
) -> Result<(), Refusal> {
    Refusal::done(ffi::predict_frame(references, orders, [filter.code(), full_pixel.into()], frame))
}
