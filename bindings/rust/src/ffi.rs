//! The functions of include/threshowl.h as safe ones, which give back the C number. Each slice is handed over with its own length,
//! and what is written is lent alone; beyond that the C functions take every value.
//!
//! A further function of the header is declared here, and offered by the module that it belongs to: predictions by `prediction`,
//! that of a frame by `frame`, those that add the residue by `reconstruction`, and the first and the last under the original's
//! name by `motion_comp` where it has one. A prediction is one entry of `predictions!`.

use crate::frame::{Frame, References};
use crate::motion_vector::Mv;
use crate::prediction::{Clipped, Picture, Position};
use crate::reconstruction::QuantIndices;

/// A prediction has the picture and the position before what is its own, and the output after that; what it reports comes last.
macro_rules! predictions {
    ($($name:ident($($given:ident: $type:ty),*) = $symbol:ident($($handed:expr => $c:ty),*)
        $(reports $($told:expr => $t:ty),*)?;)*) => {
        extern "C" {
            $(fn $symbol(
                y: *const u8, y_len: usize, u: *const u8, u_len: usize, v: *const u8, v_len: usize,
                y_stride: usize, u_stride: usize, v_stride: usize,
                mb_cols: usize, mb_rows: usize, mb_col: usize, mb_row: usize,
                $(_: $c,)* out: *mut u8, out_len: usize, $($(_: $t,)*)?
            ) -> u32;)*
        }
        $(pub(crate) fn $name(picture: &Picture<'_>, at: Position, $($given: $type,)* out: &mut [u8; 384]) -> u32 {
            let Picture { y, u, v, .. } = *picture;
            // SAFETY: as the head of this file says.
            unsafe {
                $symbol(
                    y.as_ptr(), y.len(), u.as_ptr(), u.len(), v.as_ptr(), v.len(),
                    picture.y_stride, picture.u_stride, picture.v_stride,
                    picture.mb_cols, picture.mb_rows, at.mb_col, at.mb_row,
                    $($handed,)* out.as_mut_ptr(), out.len(), $($($told,)*)?
                )
            }
        })*
    };
}

predictions! {
    whole(mv: Mv, codes: [u8; 2]) = threshowl_predict_whole(
        mv.row => i16, mv.col => i16, codes[0] => u8, codes[1] => u8);
    whole_by_version(mv: Mv, codes: [u8; 2]) = threshowl_predict_whole_by_version(
        mv.row => i16, mv.col => i16, codes[0] => u8, codes[1] => u8);
    split(vectors: &[u8; 64], codes: [u8; 2]) = threshowl_predict_split(
        vectors.as_ptr() => *const u8, vectors.len() => usize, codes[0] => u8, codes[1] => u8);
    split_by_version(vectors: &[u8; 64], codes: [u8; 2]) = threshowl_predict_split_by_version(
        vectors.as_ptr() => *const u8, vectors.len() => usize, codes[0] => u8, codes[1] => u8);
    merging(vectors: &[u8; 64], codes: [u8; 2]) = threshowl_predict_merging(
        vectors.as_ptr() => *const u8, vectors.len() => usize, codes[0] => u8, codes[1] => u8);
    quarters(vectors: &[u8; 64], codes: [u8; 2]) = threshowl_predict_quarters(
        vectors.as_ptr() => *const u8, vectors.len() => usize, codes[0] => u8, codes[1] => u8);
    report(vectors: &[u8; 64], codes: [u8; 3], fetched: &mut u64, clipped: &mut Clipped) = threshowl_predict_report(
        vectors.as_ptr() => *const u8, vectors.len() => usize, codes[0] => u8, codes[1] => u8, codes[2] => u8)
        reports fetched => *mut u64, &mut clipped.low => *mut u64, &mut clipped.high => *mut u64;
    finished_whole(mv: Mv, codes: [u8; 3], numbers: &[i16]) = threshowl_reconstruct_whole(
        mv.row => i16, mv.col => i16, codes[0] => u8, codes[1] => u8, codes[2] => u8,
        numbers.as_ptr() => *const i16, numbers.len() => usize);
    finished_whole_pixel(mv: Mv, codes: [u8; 2], numbers: &[i16]) = threshowl_reconstruct_whole_pixel(
        mv.row => i16, mv.col => i16, codes[0] => u8, codes[1] => u8,
        numbers.as_ptr() => *const i16, numbers.len() => usize);
    finished_split(vectors: &[u8; 64], codes: [u8; 3], numbers: &[i16]) = threshowl_reconstruct_split(
        vectors.as_ptr() => *const u8, vectors.len() => usize, codes[0] => u8, codes[1] => u8, codes[2] => u8,
        numbers.as_ptr() => *const i16, numbers.len() => usize);
    levels_whole(mv: Mv, codes: [u8; 3], numbers: &[i16], q: QuantIndices) = threshowl_reconstruct_whole_from_levels(
        mv.row => i16, mv.col => i16, codes[0] => u8, codes[1] => u8, codes[2] => u8,
        numbers.as_ptr() => *const i16, numbers.len() => usize,
        q.y_ac_qi => i32, q.y_dc_delta => i32, q.y2_dc_delta => i32, q.y2_ac_delta => i32, q.uv_dc_delta => i32,
        q.uv_ac_delta => i32);
    levels_whole_pixel(mv: Mv, codes: [u8; 2], numbers: &[i16], q: QuantIndices) = threshowl_reconstruct_whole_pixel_from_levels(
        mv.row => i16, mv.col => i16, codes[0] => u8, codes[1] => u8,
        numbers.as_ptr() => *const i16, numbers.len() => usize,
        q.y_ac_qi => i32, q.y_dc_delta => i32, q.y2_dc_delta => i32, q.y2_ac_delta => i32, q.uv_dc_delta => i32,
        q.uv_ac_delta => i32);
    levels_split(vectors: &[u8; 64], codes: [u8; 3], numbers: &[i16], q: QuantIndices) = threshowl_reconstruct_split_from_levels(
        vectors.as_ptr() => *const u8, vectors.len() => usize, codes[0] => u8, codes[1] => u8, codes[2] => u8,
        numbers.as_ptr() => *const i16, numbers.len() => usize,
        q.y_ac_qi => i32, q.y_dc_delta => i32, q.y2_dc_delta => i32, q.y2_ac_delta => i32, q.uv_dc_delta => i32,
        q.uv_ac_delta => i32);
}

extern "C" {
    fn threshowl_predict_frame(
        last_y: *const u8,
        last_y_len: usize,
        last_u: *const u8,
        last_u_len: usize,
        last_v: *const u8,
        last_v_len: usize,
        golden_y: *const u8,
        golden_y_len: usize,
        golden_u: *const u8,
        golden_u_len: usize,
        golden_v: *const u8,
        golden_v_len: usize,
        altref_y: *const u8,
        altref_y_len: usize,
        altref_u: *const u8,
        altref_u_len: usize,
        altref_v: *const u8,
        altref_v_len: usize,
        y_stride: usize,
        u_stride: usize,
        v_stride: usize,
        mb_cols: usize,
        mb_rows: usize,
        orders: *const u8,
        orders_len: usize,
        filter: u8,
        full_pixel: u8,
        out_y: *mut u8,
        out_y_len: usize,
        out_u: *mut u8,
        out_u_len: usize,
        out_v: *mut u8,
        out_v_len: usize,
        out_y_stride: usize,
        out_u_stride: usize,
        out_v_stride: usize,
    ) -> u32;

    fn threshowl_add_clipped(low: *mut u64, high: *mut u64, mb_low: u64, mb_high: u64) -> u32;
    fn threshowl_ivf_mend(
        file: *const u8,
        file_len: usize,
        out: *mut u8,
        out_len: usize,
        old_count: *mut u64,
        new_count: *mut u64,
        dropped: *mut u64,
    ) -> u32;

    fn threshowl_y4m_header(file: *const u8, file_len: usize, width: *mut u64, height: *mut u64, taken: *mut u64) -> u32;

    fn threshowl_y4m_read_frame(
        file: *const u8,
        file_len: usize,
        width: usize,
        height: usize,
        out: *mut u8,
        out_len: usize,
        taken: *mut u64,
    ) -> u32;

    fn threshowl_y4m_write_frame(
        frame: *const u8,
        frame_len: usize,
        width: usize,
        height: usize,
        out: *mut u8,
        out_len: usize,
        written: *mut u64,
    ) -> u32;
}

pub(crate) fn predict_frame(references: &References<'_>, orders: &[u8], codes: [u8; 2], frame: &mut Frame<'_>) -> u32 {
    let References { last, golden, altref, .. } = references;
    // SAFETY: as the head of this file says.
    unsafe {
        threshowl_predict_frame(
            last.y.as_ptr(),
            last.y.len(),
            last.u.as_ptr(),
            last.u.len(),
            last.v.as_ptr(),
            last.v.len(),
            golden.y.as_ptr(),
            golden.y.len(),
            golden.u.as_ptr(),
            golden.u.len(),
            golden.v.as_ptr(),
            golden.v.len(),
            altref.y.as_ptr(),
            altref.y.len(),
            altref.u.as_ptr(),
            altref.u.len(),
            altref.v.as_ptr(),
            altref.v.len(),
            references.y_stride,
            references.u_stride,
            references.v_stride,
            references.mb_cols,
            references.mb_rows,
            orders.as_ptr(),
            orders.len(),
            codes[0],
            codes[1],
            frame.y.as_mut_ptr(),
            frame.y.len(),
            frame.u.as_mut_ptr(),
            frame.u.len(),
            frame.v.as_mut_ptr(),
            frame.v.len(),
            frame.y_stride,
            frame.u_stride,
            frame.v_stride,
        )
    }
}

/// The running totals are left as they were where it refuses.
pub(crate) fn add_clipped(totals: &mut Clipped, mb: Clipped) -> u32 {
    // SAFETY: as the head of this file says.
    unsafe { threshowl_add_clipped(&mut totals.low, &mut totals.high, mb.low, mb.high) }
}

/// The number, and the three that the call reports.
pub(crate) fn ivf_mend(file: &[u8], out: &mut [u8]) -> (u32, [u64; 3]) {
    let [mut old_count, mut new_count, mut dropped] = [0; 3];
    let (from, to) = (file.as_ptr(), out.as_mut_ptr());
    // SAFETY: as the head of this file says.
    let number = unsafe { threshowl_ivf_mend(from, file.len(), to, out.len(), &mut old_count, &mut new_count, &mut dropped) };
    (number, [old_count, new_count, dropped])
}

/// The number, and the three that the call reports.
pub(crate) fn y4m_header(file: &[u8]) -> (u32, [u64; 3]) {
    let [mut width, mut height, mut taken] = [0; 3];
    // SAFETY: as the head of this file says.
    let number = unsafe { threshowl_y4m_header(file.as_ptr(), file.len(), &mut width, &mut height, &mut taken) };
    (number, [width, height, taken])
}

/// The number, and the bytes taken.
pub(crate) fn y4m_read_frame(file: &[u8], width: usize, height: usize, out: &mut [u8]) -> (u32, u64) {
    let mut taken = 0;
    let (from, to) = (file.as_ptr(), out.as_mut_ptr());
    // SAFETY: as the head of this file says.
    let number = unsafe { threshowl_y4m_read_frame(from, file.len(), width, height, to, out.len(), &mut taken) };
    (number, taken)
}

/// The number, and the bytes written.
pub(crate) fn y4m_write_frame(frame: &[u8], width: usize, height: usize, out: &mut [u8]) -> (u32, u64) {
    let mut written = 0;
    let (from, to) = (frame.as_ptr(), out.as_mut_ptr());
    // SAFETY: as the head of this file says.
    let number = unsafe { threshowl_y4m_write_frame(from, frame.len(), width, height, to, out.len(), &mut written) };
    (number, written)
}
