// The two sides of a comparison: a call's arguments written once, and the
// product's C functions and the original's Rust functions called with them.

pub mod finished;
pub mod one_plane;
pub mod pictures;
pub mod random;
pub mod shims;

use original::motion_comp::{self, ReferencePlanes, BILINEAR_FILTERS, SIXTAP_FILTERS};
pub use original::motion_vector::Mv;
use original::reconstruct::ReconstructedMb;
use pictures::Picture;

pub const SAMPLES: usize = 384;

/// The form of prediction. The original has no merging, and none by quarters:
/// they are compared with the original's split prediction.
#[derive(Clone, Copy, PartialEq, Debug)]
pub enum Form {
    Whole,
    Split,
    Merging,
    Quarters,
}

impl Form {
    pub const ALL: [Form; 4] = [Form::Whole, Form::Split, Form::Merging, Form::Quarters];

    pub fn name(self) -> &'static str {
        match self {
            Form::Whole => "whole",
            Form::Split => "split",
            Form::Merging => "merging",
            Form::Quarters => "quarters",
        }
    }
}

/// Sixteen vectors, as the original takes them and as the C functions do.
/// Sixty-four bytes more follow, so that a length above 64 can be true.
#[derive(Clone, Copy)]
pub struct Vectors {
    pub list: [Mv; 16],
    pub bytes: [u8; 128],
}

impl Vectors {
    pub fn new(list: [Mv; 16]) -> Vectors {
        let mut bytes = [0; 128];
        for (mv, pair) in list.iter().zip(bytes.chunks_mut(4)) {
            pair.copy_from_slice(&vector_bytes(*mv));
        }
        Vectors { list, bytes }
    }

    pub fn equal(row: i16, col: i16) -> Vectors {
        Vectors::new([Mv { row, col }; 16])
    }
}

/// Row then column, each little-endian.
pub fn vector_bytes(mv: Mv) -> [u8; 4] {
    let (row, col) = (mv.row.to_le_bytes(), mv.col.to_le_bytes());
    [row[0], row[1], col[0], col[1]]
}

/// All that a call is given but for its output. Whole prediction takes the
/// first of the vectors.
#[derive(Clone, Copy)]
pub struct Call<'a> {
    pub y: &'a [u8],
    pub u: &'a [u8],
    pub v: &'a [u8],
    pub y_stride: usize,
    pub u_stride: usize,
    pub v_stride: usize,
    pub mb_cols: usize,
    pub mb_rows: usize,
    pub mb_col: usize,
    pub mb_row: usize,
    pub vectors: Vectors,
    pub vectors_len: usize,
    pub filter: u8,
    pub full_pixel: u8,
    pub out_len: usize,
}

impl<'a> Call<'a> {
    /// A call that is in order, for macroblock `at` (column, row).
    pub fn on(
        picture: &'a Picture,
        at: (usize, usize),
        vectors: Vectors,
        filter: u8,
        full_pixel: u8,
    ) -> Call<'a> {
        let g = picture.geometry;
        Call {
            y: &picture.y,
            u: &picture.u,
            v: &picture.v,
            y_stride: g.y_stride,
            u_stride: g.u_stride,
            v_stride: g.v_stride,
            mb_cols: g.mb_cols,
            mb_rows: g.mb_rows,
            mb_col: at.0,
            mb_row: at.1,
            vectors,
            vectors_len: 64,
            filter,
            full_pixel,
            out_len: SAMPLES,
        }
    }
}

#[rustfmt::skip]
extern "C" {
    fn threshowl_predict_whole(
        y: *const u8, y_len: usize, u: *const u8, u_len: usize, v: *const u8, v_len: usize,
        y_stride: usize, u_stride: usize, v_stride: usize,
        mb_cols: usize, mb_rows: usize, mb_col: usize, mb_row: usize,
        mv_row: i16, mv_col: i16, filter: u8, full_pixel: u8, out: *mut u8, out_len: usize,
    ) -> u32;
    fn threshowl_predict_split(
        y: *const u8, y_len: usize, u: *const u8, u_len: usize, v: *const u8, v_len: usize,
        y_stride: usize, u_stride: usize, v_stride: usize,
        mb_cols: usize, mb_rows: usize, mb_col: usize, mb_row: usize,
        vectors: *const u8, vectors_len: usize, filter: u8, full_pixel: u8, out: *mut u8, out_len: usize,
    ) -> u32;
    fn threshowl_predict_merging(
        y: *const u8, y_len: usize, u: *const u8, u_len: usize, v: *const u8, v_len: usize,
        y_stride: usize, u_stride: usize, v_stride: usize,
        mb_cols: usize, mb_rows: usize, mb_col: usize, mb_row: usize,
        vectors: *const u8, vectors_len: usize, filter: u8, full_pixel: u8, out: *mut u8, out_len: usize,
    ) -> u32;
    fn threshowl_predict_quarters(
        y: *const u8, y_len: usize, u: *const u8, u_len: usize, v: *const u8, v_len: usize,
        y_stride: usize, u_stride: usize, v_stride: usize,
        mb_cols: usize, mb_rows: usize, mb_col: usize, mb_row: usize,
        vectors: *const u8, vectors_len: usize, filter: u8, full_pixel: u8, out: *mut u8, out_len: usize,
    ) -> u32;
}

/// The product's number; its samples go to `out`.
///
/// # Safety
/// `out` is good for `call.out_len` bytes, or the call is one that is refused.
#[rustfmt::skip]
#[inline]
pub unsafe fn product(form: Form, call: &Call, out: *mut u8) -> u32 {
    let c = call;
    let (y, u, v) = (c.y.as_ptr(), c.u.as_ptr(), c.v.as_ptr());
    if form == Form::Whole {
        let mv = c.vectors.list[0];
        return threshowl_predict_whole(
            y, c.y.len(), u, c.u.len(), v, c.v.len(),
            c.y_stride, c.u_stride, c.v_stride, c.mb_cols, c.mb_rows, c.mb_col, c.mb_row,
            mv.row, mv.col, c.filter, c.full_pixel, out, c.out_len,
        );
    }
    let predict = match form {
        Form::Merging => threshowl_predict_merging,
        Form::Quarters => threshowl_predict_quarters,
        _ => threshowl_predict_split,
    };
    predict(
        y, c.y.len(), u, c.u.len(), v, c.v.len(),
        c.y_stride, c.u_stride, c.v_stride, c.mb_cols, c.mb_rows, c.mb_col, c.mb_row,
        c.vectors.bytes.as_ptr(), c.vectors_len, c.filter, c.full_pixel, out, c.out_len,
    )
}

/// What `found` makes of the call with one stride for U and V, as the original
/// has it: where they differ, of the same samples without gaps.
pub fn at_one_stride<T>(call: &Call, found: impl FnOnce(&Call) -> T) -> T {
    if call.u_stride == call.v_stride {
        return found(call);
    }
    let (width, height) = (call.mb_cols * 8, call.mb_rows * 8);
    let packed = |plane: &[u8], stride: usize| -> Vec<u8> {
        let row = |r: usize| &plane[r * stride..r * stride + width];
        (0..height).flat_map(row).copied().collect()
    };
    let (u, v) = (packed(call.u, call.u_stride), packed(call.v, call.v_stride));
    found(&Call {
        u: &u,
        v: &v,
        u_stride: width,
        v_stride: width,
        ..*call
    })
}

/// The original's planes; U and V have one stride.
pub fn reference<'a>(call: &Call<'a>) -> ReferencePlanes<'a> {
    ReferencePlanes {
        y: call.y,
        u: call.u,
        v: call.v,
        y_stride: call.y_stride,
        uv_stride: call.u_stride,
        mb_cols: call.mb_cols,
        mb_rows: call.mb_rows,
    }
}

/// The original's table for a filter code.
pub fn taps(filter: u8) -> &'static [[i32; 6]; 8] {
    if filter == 0 {
        &SIXTAP_FILTERS
    } else {
        &BILINEAR_FILTERS
    }
}

/// The original's prediction; the call must be in order, with one stride for U
/// and V.
#[inline]
pub fn original(form: Form, call: &Call) -> ReconstructedMb {
    let (planes, flag, table) = (reference(call), call.full_pixel != 0, taps(call.filter));
    let list = &call.vectors.list;
    match form {
        Form::Whole => {
            motion_comp::predict_inter_mb(&planes, call.mb_col, call.mb_row, list[0], flag, table)
        }
        Form::Split | Form::Merging | Form::Quarters => {
            motion_comp::predict_split_mv(&planes, call.mb_col, call.mb_row, list, flag, table)
        }
    }
}

/// The samples in the order of the C functions' output.
pub fn in_order(mb: &ReconstructedMb) -> [u8; SAMPLES] {
    let mut bytes = [0; SAMPLES];
    bytes[..256].copy_from_slice(&mb.y);
    bytes[256..320].copy_from_slice(&mb.u);
    bytes[320..].copy_from_slice(&mb.v);
    bytes
}
