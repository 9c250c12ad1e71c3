// The original's functions on one plane, on halos and on vectors, with their
// answers as bytes. Each is given valid input only.

use crate::{in_order, reference, taps, vector_bytes, Call, Mv};
use original::motion_comp as mc;

/// One plane, and the start of a block in it.
#[derive(Clone, Copy)]
pub struct Place<'a> {
    pub plane: &'a [u8],
    pub stride: usize,
    pub w: usize,
    pub h: usize,
    pub x: usize,
    pub y: usize,
}

/// The fetch of a square of the side given, 4, 8, 16, or 9, 13, 21 with its
/// halo, to `out`, which has as many samples.
pub fn fetch_to(side: u8, p: Place, mv: Mv, out: &mut [u8]) {
    let Place {
        plane,
        stride,
        w,
        h,
        x,
        y,
    } = p;
    match side {
        4 => out.copy_from_slice(&mc::fetch_block_whole_pixel(plane, stride, w, h, x, y, mv)),
        8 => out.copy_from_slice(&mc::fetch_chroma_mb_whole_pixel(
            plane, stride, w, h, x, y, mv,
        )),
        9 => out.copy_from_slice(&mc::fetch_block_halo(plane, stride, w, h, x, y, mv)),
        13 => out.copy_from_slice(&mc::fetch_chroma_mb_halo(plane, stride, w, h, x, y, mv)),
        16 => out.copy_from_slice(&mc::fetch_luma_mb_whole_pixel(
            plane, stride, w, h, x, y, mv,
        )),
        21 => out.copy_from_slice(&mc::fetch_luma_mb_halo(plane, stride, w, h, x, y, mv)),
        _ => panic!("no fetch has side {side}"),
    }
}

pub fn fetch(side: u8, p: Place, mv: Mv) -> Vec<u8> {
    let mut out = vec![0; usize::from(side) * usize::from(side)];
    fetch_to(side, p, mv, &mut out);
    out
}

/// The filter of a block of the width given, 4, 8 or 16, to `out`.
pub fn sixtap_to(width: u8, halo: &[u8], mx: usize, my: usize, filter: u8, out: &mut [u8]) {
    /// The halo in an array, as the original takes it.
    fn around<const N: usize>(halo: &[u8]) -> [u8; N] {
        halo.try_into()
            .expect("a halo has five samples a side more than its block")
    }
    let table = taps(filter);
    match width {
        4 => out.copy_from_slice(&mc::sixtap_2d(&around(halo), mx, my, table)),
        8 => out.copy_from_slice(&mc::sixtap_mb_chroma(&around(halo), mx, my, table)),
        16 => out.copy_from_slice(&mc::sixtap_mb_luma(&around(halo), mx, my, table)),
        _ => panic!("no filter has width {width}"),
    }
}

pub fn sixtap(width: u8, halo: &[u8], mx: usize, my: usize, filter: u8) -> Vec<u8> {
    let mut out = vec![0; usize::from(width) * usize::from(width)];
    sixtap_to(width, halo, mx, my, filter, &mut out);
    out
}

pub fn interp(filter: u8, k: usize, support: &[u8; 6]) -> u8 {
    mc::interp(&taps(filter)[k], support)
}

pub fn filter_block_to(p: Place, mv: Mv, filter: u8, out: &mut [u8]) {
    let table = taps(filter);
    out.copy_from_slice(&mc::filter_block_4x4(
        p.plane, p.stride, p.w, p.h, p.x, p.y, mv, table,
    ));
}

pub fn filter_block(p: Place, mv: Mv, filter: u8) -> Vec<u8> {
    let mut out = vec![0; 16];
    filter_block_to(p, mv, filter, &mut out);
    out
}

/// Writes the block at `to` (column, row) of `dst`.
pub fn filter_block_into(
    dst: &mut [u8],
    dst_stride: usize,
    to: (usize, usize),
    p: Place,
    mv: Mv,
    filter: u8,
) {
    let (dst_x, dst_y) = to;
    let Place {
        plane,
        stride,
        w,
        h,
        x,
        y,
    } = p;
    mc::filter_block_4x4_into(
        dst,
        dst_stride,
        dst_x,
        dst_y,
        plane,
        stride,
        w,
        h,
        x,
        y,
        mv,
        taps(filter),
    );
}

pub fn stored(mv: Mv) -> Vec<u8> {
    vector_bytes(mc::stored_luma_mv(mv)).to_vec()
}

pub fn chroma(mv: Mv) -> Vec<u8> {
    vector_bytes(mc::chroma_mv(mv)).to_vec()
}

pub fn full_pixel(mv: Mv) -> Vec<u8> {
    vector_bytes(mc::apply_full_pixel(mv)).to_vec()
}

pub fn split_chroma(list: &[Mv; 16]) -> Vec<u8> {
    mc::split_chroma_mvs(list)
        .iter()
        .flat_map(|mv| vector_bytes(*mv))
        .collect()
}

/// Nothing where a fraction is left.
pub fn whole_pixel(call: &Call) -> Option<Vec<u8>> {
    let mv = call.vectors.list[0];
    mc::predict_inter_mb_whole_pixel(
        &reference(call),
        call.mb_col,
        call.mb_row,
        mv,
        call.full_pixel != 0,
    )
    .ok()
    .map(|mb| in_order(&mb).to_vec())
}
