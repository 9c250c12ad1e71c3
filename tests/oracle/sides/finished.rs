// The calls that finish a macroblock, on both sides.

use crate::{reference, taps, Call, Mv};
use original::inverse_transform::{clamp_qindex, dequant_block, AC_QLOOKUP, DC_QLOOKUP};
use original::motion_comp;
use original::reconstruct::ReconstructedMb;

#[derive(Clone, Copy, PartialEq, Debug)]
pub enum Finish {
    Whole,
    WholePixel,
    Split,
}

impl Finish {
    pub const ALL: [Finish; 3] = [Finish::Whole, Finish::WholePixel, Finish::Split];

    pub fn name(self) -> &'static str {
        match self {
            Finish::Whole => "whole",
            Finish::WholePixel => "whole pixel",
            Finish::Split => "split",
        }
    }

    /// How many coefficients it takes.
    pub fn count(self) -> usize {
        if self == Finish::Split {
            BLOCKS
        } else {
            Y2 + BLOCKS
        }
    }
}

/// The numbers of Y2, and of the 24 blocks after it.
pub const Y2: usize = 16;
pub const BLOCKS: usize = 384;

/// Coefficients as the C functions take them, Y2 first; split takes those after
/// it. Sixteen more follow, so that a count above can be true.
pub type Coefficients = [i16; Y2 + BLOCKS + 16];

/// A base index, and what the other five have beyond it: Y DC, Y2 DC, Y2 AC, chroma
/// DC and chroma AC.
#[derive(Clone, Copy, Debug)]
pub struct Quantiser {
    pub base: i32,
    pub deltas: [i32; 5],
}

impl Quantiser {
    fn dc(&self, delta: usize) -> i16 {
        DC_QLOOKUP[clamp_qindex(self.base + self.deltas[delta])]
    }

    fn ac(&self, delta: i32) -> i16 {
        AC_QLOOKUP[clamp_qindex(self.base + delta)]
    }

    /// DC and AC of block b, Y2 first: the original's tables, and the rules of the
    /// reference decoder of RFC 6386 (section 20.4).
    pub fn factors(&self, b: usize) -> (i16, i16) {
        match b {
            0 => {
                let ac = i32::from(self.ac(self.deltas[2])) * 155 / 100;
                (self.dc(1) * 2, ac.max(8) as i16)
            }
            1..=16 => (self.dc(0), self.ac(0)),
            _ => (self.dc(3).min(132), self.ac(self.deltas[4])),
        }
    }

    /// That of number i.
    pub fn factor(&self, i: usize) -> i16 {
        let (dc, ac) = self.factors(i / 16);
        if i % 16 == 0 {
            dc
        } else {
            ac
        }
    }

    /// Levels as the original dequantises them: it keeps sixteen bits of a product.
    pub fn dequantised(&self, levels: &Coefficients) -> Coefficients {
        let mut numbers = *levels;
        let (blocks, _) = numbers.as_chunks_mut::<16>();
        for (b, block) in blocks.iter_mut().enumerate().take(25) {
            let (dc, ac) = self.factors(b);
            dequant_block(block, dc, ac);
        }
        numbers
    }
}

/// What is handed over besides what a prediction takes. With a quantiser the
/// coefficients are levels, and the calls are those that take levels.
#[derive(Clone, Copy)]
pub struct Residue<'a> {
    pub coefficients: &'a Coefficients,
    pub count: usize,
    pub skip: u8,
    pub quantiser: Option<Quantiser>,
}

impl<'a> Residue<'a> {
    /// As many numbers as the form takes.
    pub fn of(
        form: Finish,
        coefficients: &'a Coefficients,
        skip: u8,
        quantiser: Option<Quantiser>,
    ) -> Residue<'a> {
        Residue {
            coefficients,
            count: form.count(),
            skip,
            quantiser,
        }
    }
}

#[rustfmt::skip]
extern "C" {
    fn threshowl_reconstruct_whole(
        y: *const u8, y_len: usize, u: *const u8, u_len: usize, v: *const u8, v_len: usize,
        y_stride: usize, u_stride: usize, v_stride: usize,
        mb_cols: usize, mb_rows: usize, mb_col: usize, mb_row: usize,
        mv_row: i16, mv_col: i16, filter: u8, full_pixel: u8, skip: u8,
        coefficients: *const i16, coefficients_len: usize, out: *mut u8, out_len: usize,
    ) -> u32;
    fn threshowl_reconstruct_whole_pixel(
        y: *const u8, y_len: usize, u: *const u8, u_len: usize, v: *const u8, v_len: usize,
        y_stride: usize, u_stride: usize, v_stride: usize,
        mb_cols: usize, mb_rows: usize, mb_col: usize, mb_row: usize,
        mv_row: i16, mv_col: i16, full_pixel: u8, skip: u8,
        coefficients: *const i16, coefficients_len: usize, out: *mut u8, out_len: usize,
    ) -> u32;
    fn threshowl_reconstruct_split(
        y: *const u8, y_len: usize, u: *const u8, u_len: usize, v: *const u8, v_len: usize,
        y_stride: usize, u_stride: usize, v_stride: usize,
        mb_cols: usize, mb_rows: usize, mb_col: usize, mb_row: usize,
        vectors: *const u8, vectors_len: usize, filter: u8, full_pixel: u8, skip: u8,
        coefficients: *const i16, coefficients_len: usize, out: *mut u8, out_len: usize,
    ) -> u32;
    fn threshowl_reconstruct_whole_from_levels(
        y: *const u8, y_len: usize, u: *const u8, u_len: usize, v: *const u8, v_len: usize,
        y_stride: usize, u_stride: usize, v_stride: usize,
        mb_cols: usize, mb_rows: usize, mb_col: usize, mb_row: usize,
        mv_row: i16, mv_col: i16, filter: u8, full_pixel: u8, skip: u8,
        levels: *const i16, levels_len: usize, y_ac_qi: i32, y_dc_delta: i32,
        y2_dc_delta: i32, y2_ac_delta: i32, uv_dc_delta: i32, uv_ac_delta: i32, out: *mut u8, out_len: usize,
    ) -> u32;
    fn threshowl_reconstruct_whole_pixel_from_levels(
        y: *const u8, y_len: usize, u: *const u8, u_len: usize, v: *const u8, v_len: usize,
        y_stride: usize, u_stride: usize, v_stride: usize,
        mb_cols: usize, mb_rows: usize, mb_col: usize, mb_row: usize,
        mv_row: i16, mv_col: i16, full_pixel: u8, skip: u8,
        levels: *const i16, levels_len: usize, y_ac_qi: i32, y_dc_delta: i32,
        y2_dc_delta: i32, y2_ac_delta: i32, uv_dc_delta: i32, uv_ac_delta: i32, out: *mut u8, out_len: usize,
    ) -> u32;
    fn threshowl_reconstruct_split_from_levels(
        y: *const u8, y_len: usize, u: *const u8, u_len: usize, v: *const u8, v_len: usize,
        y_stride: usize, u_stride: usize, v_stride: usize,
        mb_cols: usize, mb_rows: usize, mb_col: usize, mb_row: usize,
        vectors: *const u8, vectors_len: usize, filter: u8, full_pixel: u8, skip: u8,
        levels: *const i16, levels_len: usize, y_ac_qi: i32, y_dc_delta: i32,
        y2_dc_delta: i32, y2_ac_delta: i32, uv_dc_delta: i32, uv_ac_delta: i32, out: *mut u8, out_len: usize,
    ) -> u32;
}

/// The product's number; its samples go to `out`.
///
/// # Safety
/// `out` is good for `call.out_len` bytes, or the call is one that is refused.
#[rustfmt::skip]
#[inline]
pub unsafe fn product(form: Finish, call: &Call, residue: &Residue, out: *mut u8) -> u32 {
    if let Some(q) = &residue.quantiser {
        return from_levels(form, call, residue, q, out);
    }
    let (c, r) = (call, residue);
    let (y, u, v) = (c.y.as_ptr(), c.u.as_ptr(), c.v.as_ptr());
    let mv = c.vectors.list[0];
    let all = r.coefficients.as_ptr();
    match form {
        Finish::Whole => threshowl_reconstruct_whole(
            y, c.y.len(), u, c.u.len(), v, c.v.len(),
            c.y_stride, c.u_stride, c.v_stride, c.mb_cols, c.mb_rows, c.mb_col, c.mb_row,
            mv.row, mv.col, c.filter, c.full_pixel, r.skip, all, r.count, out, c.out_len,
        ),
        Finish::WholePixel => threshowl_reconstruct_whole_pixel(
            y, c.y.len(), u, c.u.len(), v, c.v.len(),
            c.y_stride, c.u_stride, c.v_stride, c.mb_cols, c.mb_rows, c.mb_col, c.mb_row,
            mv.row, mv.col, c.full_pixel, r.skip, all, r.count, out, c.out_len,
        ),
        Finish::Split => threshowl_reconstruct_split(
            y, c.y.len(), u, c.u.len(), v, c.v.len(),
            c.y_stride, c.u_stride, c.v_stride, c.mb_cols, c.mb_rows, c.mb_col, c.mb_row,
            c.vectors.bytes.as_ptr(), c.vectors_len, c.filter, c.full_pixel, r.skip,
            all.add(Y2), r.count, out, c.out_len,
        ),
    }
}

#[rustfmt::skip]
#[inline]
unsafe fn from_levels(form: Finish, call: &Call, residue: &Residue, q: &Quantiser, out: *mut u8) -> u32 {
    let (c, r, d) = (call, residue, q.deltas);
    let (y, u, v) = (c.y.as_ptr(), c.u.as_ptr(), c.v.as_ptr());
    let mv = c.vectors.list[0];
    let all = r.coefficients.as_ptr();
    match form {
        Finish::Whole => threshowl_reconstruct_whole_from_levels(
            y, c.y.len(), u, c.u.len(), v, c.v.len(),
            c.y_stride, c.u_stride, c.v_stride, c.mb_cols, c.mb_rows, c.mb_col, c.mb_row,
            mv.row, mv.col, c.filter, c.full_pixel, r.skip, all, r.count,
            q.base, d[0], d[1], d[2], d[3], d[4], out, c.out_len,
        ),
        Finish::WholePixel => threshowl_reconstruct_whole_pixel_from_levels(
            y, c.y.len(), u, c.u.len(), v, c.v.len(),
            c.y_stride, c.u_stride, c.v_stride, c.mb_cols, c.mb_rows, c.mb_col, c.mb_row,
            mv.row, mv.col, c.full_pixel, r.skip, all, r.count,
            q.base, d[0], d[1], d[2], d[3], d[4], out, c.out_len,
        ),
        Finish::Split => threshowl_reconstruct_split_from_levels(
            y, c.y.len(), u, c.u.len(), v, c.v.len(),
            c.y_stride, c.u_stride, c.v_stride, c.mb_cols, c.mb_rows, c.mb_col, c.mb_row,
            c.vectors.bytes.as_ptr(), c.vectors_len, c.filter, c.full_pixel, r.skip,
            all.add(Y2), r.count,
            q.base, d[0], d[1], d[2], d[3], d[4], out, c.out_len,
        ),
    }
}

fn blocks<const N: usize>(numbers: &[i16]) -> &[[i16; 16]; N] {
    let (blocks, _) = numbers.as_chunks::<16>();
    blocks[..N].try_into().expect("so many blocks")
}

/// The original's finished macroblock, of levels once it has dequantised them, or none
/// where a fraction is left of a whole-pixel vector. The call must be in order, with one stride for U and V.
#[inline]
pub fn original(form: Finish, call: &Call, residue: &Residue) -> Option<ReconstructedMb> {
    let (planes, flag, skip) = (reference(call), call.full_pixel != 0, residue.skip != 0);
    let (at, list) = ((call.mb_col, call.mb_row), &call.vectors.list);
    let made = residue
        .quantiser
        .map(|q| q.dequantised(residue.coefficients));
    let all = made.as_ref().unwrap_or(residue.coefficients);
    let y2 = &blocks::<1>(all)[0];
    let (y, u, v) = (blocks(&all[16..]), blocks(&all[272..]), blocks(&all[336..]));
    match form {
        Finish::Whole => Some(motion_comp::reconstruct_inter_mb(
            &planes,
            at.0,
            at.1,
            list[0],
            flag,
            taps(call.filter),
            skip,
            y2,
            y,
            u,
            v,
        )),
        Finish::WholePixel => motion_comp::reconstruct_inter_mb_whole_pixel(
            &planes, at.0, at.1, list[0], flag, skip, y2, y, u, v,
        )
        .ok(),
        Finish::Split => Some(motion_comp::reconstruct_split_mv_mb(
            &planes,
            at.0,
            at.1,
            list,
            flag,
            taps(call.filter),
            skip,
            y,
            u,
            v,
        )),
    }
}

/// A vector that leaves no fraction in luma or chroma.
pub fn whole_pixels(mv: Mv) -> Mv {
    Mv {
        row: mv.row & !7,
        col: mv.col & !7,
    }
}
