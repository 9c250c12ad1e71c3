// The C shims of the test crate `shims`, for who links its archive. A shim hands
// on its function's number and samples: of a refused call it writes the zeros
// that the function returned. Only shim_filter_block_into is lent its
// destination, which a refused call leaves alone. Each out_len is the function's
// own number of samples.

use crate::one_plane::Place;
use crate::Mv;

#[rustfmt::skip]
extern "C" {
    fn shim_fetch(
        size: u8, plane: *const u8, len: usize, stride: usize, w: usize, h: usize, x: usize, y: usize,
        row: i16, col: i16, out: *mut u8, out_len: usize,
    ) -> u32;
    fn shim_sixtap(
        width: u8, halo: *const u8, halo_len: usize, mx: usize, my: usize, filter: u8,
        out: *mut u8, out_len: usize,
    ) -> u32;
    pub fn shim_interp(
        filter: u8, k: usize, support: *const u8, support_len: usize, out: *mut u8, out_len: usize,
    ) -> u32;
    fn shim_filter_block(
        plane: *const u8, len: usize, stride: usize, w: usize, h: usize, x: usize, y: usize,
        row: i16, col: i16, filter: u8, out: *mut u8, out_len: usize,
    ) -> u32;
    fn shim_filter_block_into(
        dst: *mut u8, dst_len: usize, dst_stride: usize, dst_x: usize, dst_y: usize,
        plane: *const u8, len: usize, stride: usize, w: usize, h: usize, x: usize, y: usize,
        row: i16, col: i16, filter: u8,
    ) -> u32;
    pub fn shim_vector(which: u8, row: i16, col: i16, out: *mut u8, out_len: usize) -> u32;
    pub fn shim_split_chroma(vectors: *const u8, len: usize, out: *mut u8, out_len: usize) -> u32;
    pub fn shim_whole_pixel(
        y: *const u8, y_len: usize, u: *const u8, u_len: usize, v: *const u8, v_len: usize,
        y_stride: usize, u_stride: usize, v_stride: usize,
        mb_cols: usize, mb_rows: usize, mb_col: usize, mb_row: usize,
        mv_row: i16, mv_col: i16, full_pixel: u8, out: *mut u8, out_len: usize,
    ) -> u32;
}

/// The fetch of a square of the side given.
///
/// # Safety
/// `out` is good for as many samples; so in what follows.
#[rustfmt::skip]
#[inline]
pub unsafe fn fetch(side: u8, p: Place, mv: Mv, out: *mut u8) -> u32 {
    let samples = usize::from(side) * usize::from(side);
    shim_fetch(
        side, p.plane.as_ptr(), p.plane.len(), p.stride, p.w, p.h, p.x, p.y, mv.row, mv.col, out, samples,
    )
}

/// The filter of a block of the width given.
///
/// # Safety
/// As `fetch`.
#[rustfmt::skip]
#[inline]
pub unsafe fn sixtap(width: u8, halo: &[u8], mx: usize, my: usize, filter: u8, out: *mut u8) -> u32 {
    let samples = usize::from(width) * usize::from(width);
    shim_sixtap(width, halo.as_ptr(), halo.len(), mx, my, filter, out, samples)
}

/// # Safety
/// As `fetch`.
#[rustfmt::skip]
#[inline]
pub unsafe fn filter_block(p: Place, mv: Mv, filter: u8, out: *mut u8) -> u32 {
    shim_filter_block(
        p.plane.as_ptr(), p.plane.len(), p.stride, p.w, p.h, p.x, p.y, mv.row, mv.col, filter, out, 16,
    )
}

/// The block at `to` (column, row) of `dst`.
#[rustfmt::skip]
#[inline]
pub fn filter_block_into(
    dst: &mut [u8], dst_stride: usize, to: (usize, usize), p: Place, mv: Mv, filter: u8,
) -> u32 {
    let (dst_x, dst_y) = to;
    unsafe {
        shim_filter_block_into(
            dst.as_mut_ptr(), dst.len(), dst_stride, dst_x, dst_y,
            p.plane.as_ptr(), p.plane.len(), p.stride, p.w, p.h, p.x, p.y, mv.row, mv.col, filter,
        )
    }
}
