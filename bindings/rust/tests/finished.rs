//! Finished macroblocks beside prediction with the residue that a plain reading of RFC 6386 (14.3 to 14.5) gives, and what is
//! refused.

mod draws;

use draws::{Draw, Planes, Residue};
use std::panic::catch_unwind;
use threshowl::motion_comp::{
    reconstruct_inter_mb, reconstruct_inter_mb_whole_pixel, reconstruct_split_mv_mb, MotionCompError, ReferencePlanes,
};
use threshowl::motion_vector::Mv;
use threshowl::prediction::{predict_split, predict_whole, Picture, Position};
use threshowl::reconstruct::ReconstructedMb;
use threshowl::reconstruction::{
    reconstruct_split, reconstruct_split_from_levels, reconstruct_whole, reconstruct_whole_from_levels, reconstruct_whole_pixel,
    reconstruct_whole_pixel_from_levels, QuantIndices, COEFFICIENTS, SPLIT_COEFFICIENTS,
};
use threshowl::tables::FilterSet;
use threshowl::Refusal;

const SETS: [FilterSet; 2] = [FilterSet::Sixtap, FilterSet::Bilinear];
const FIRST: Position = Position { mb_col: 0, mb_row: 0 };
const FLAT: ([u8; 256], [u8; 64]) = ([7; 256], [9; 64]);

fn flat() -> ReferencePlanes<'static> {
    let (y, uv) = (&FLAT.0, &FLAT.1);
    ReferencePlanes { y, u: uv, v: uv, y_stride: 16, uv_stride: 8, mb_cols: 1, mb_rows: 1 }
}

fn reference(planes: &Planes) -> ReferencePlanes<'_> {
    let Planes { y, u, v, y_stride, uv_stride, mb_cols, mb_rows, .. } = planes;
    ReferencePlanes { y, u, v, y_stride: *y_stride, uv_stride: *uv_stride, mb_cols: *mb_cols, mb_rows: *mb_rows }
}

fn vector(draw: &mut Draw) -> Mv {
    let (row, col) = draw.vector();
    Mv { row, col }
}

// ---- the plain reading

/// Rows and columns times the matrix, and rounded.
fn wht(input: &[i16; 16]) -> [i32; 16] {
    let signs: [[i32; 4]; 4] = [[1, 1, 1, 1], [1, 1, -1, -1], [1, -1, -1, 1], [1, -1, 1, -1]];
    std::array::from_fn(|o| {
        let sum: i32 = (0..16).map(|i| signs[o / 4][i / 4] * signs[o % 4][i % 4] * i32::from(input[i])).sum();
        (sum + 3) >> 3
    })
}

fn dct_of_four(x: [i32; 4]) -> [i32; 4] {
    let [sine, cosine] = [|n: i32| (n * 35468) >> 16, |n: i32| n + ((n * 20091) >> 16)];
    let (even, odd) = ((x[0] + x[2], x[0] - x[2]), (cosine(x[1]) + sine(x[3]), sine(x[1]) - cosine(x[3])));
    [even.0 + odd.0, even.1 + odd.1, even.1 - odd.1, even.0 - odd.0]
}

fn dct(input: &[i32; 16]) -> [i32; 16] {
    let columns: [[i32; 4]; 4] = std::array::from_fn(|q| dct_of_four(std::array::from_fn(|r| input[4 * r + q])));
    let rows: [[i32; 4]; 4] = std::array::from_fn(|r| dct_of_four(std::array::from_fn(|q| columns[q][r])));
    std::array::from_fn(|o| (rows[o / 4][o % 4] + 4) >> 3)
}

fn add(plane: &mut [u8], width: usize, blocks: &[[i32; 16]]) {
    let residues: Vec<_> = blocks.iter().map(dct).collect();
    for (place, sample) in plane.iter_mut().enumerate() {
        let (row, col) = (place / width, place % width);
        let residue = residues[row / 4 * (width / 4) + col / 4][row % 4 * 4 + col % 4];
        *sample = (i32::from(*sample) + residue).clamp(0, 255) as u8;
    }
}

fn wide<const N: usize>(blocks: &[[i16; 16]; N]) -> [[i32; 16]; N] {
    blocks.map(|block| block.map(i32::from))
}

fn finished(mut mb: ReconstructedMb, residue: &Residue, y2: bool) -> ReconstructedMb {
    if residue.skip {
        return mb;
    }
    let mut y = wide(&residue.y);
    if y2 {
        y.iter_mut().zip(wht(&residue.y2)).for_each(|(block, first)| block[0] = first);
    }
    add(&mut mb.y, 16, &y);
    add(&mut mb.u, 8, &wide(&residue.u));
    add(&mut mb.v, 8, &wide(&residue.v));
    mb
}

// ---- the tests

#[test]
fn the_residue_is_added() {
    let mut draw = Draw::new();
    for _ in 0..3000 {
        let planes = Planes::drawn(&mut draw);
        let (lent, at) = (reference(&planes), Position { mb_col: planes.mb_col, mb_row: planes.mb_row });
        let picture = Picture::from(lent);
        let residue = Residue::drawn(&mut draw);
        let Residue { skip, y2, y, u, v } = &residue;
        let (skip, replaced) = (*skip, residue.y_replaced(&mut draw));
        let split = [y.concat(), u.concat(), v.concat()].concat();
        let whole = [y2.to_vec(), replaced.concat(), u.concat(), v.concat()].concat();
        let (mvs, set, full) = ([(); 16].map(|()| vector(&mut draw)), SETS[draw.below(2)], draw.coin());
        let (mv, taps) = (mvs[0], set.taps());

        let due = finished(predict_whole(&picture, at, mv, set, full).unwrap(), &residue, true);
        assert_eq!(due, reconstruct_whole(&picture, at, mv, set, full, skip, &whole).unwrap());
        let Position { mb_col, mb_row } = at;
        assert_eq!(due, reconstruct_inter_mb(&lent, mb_col, mb_row, mv, full, taps, skip, y2, &replaced, u, v));

        let due = finished(predict_split(&picture, at, &mvs, set, full).unwrap(), &residue, false);
        assert_eq!(due, reconstruct_split(&picture, at, &mvs, set, full, skip, &split).unwrap());
        assert_eq!(due, reconstruct_split_mv_mb(&lent, mb_col, mb_row, &mvs, full, taps, skip, y, u, v));

        let mv = if full { mv } else { Mv { row: mv.row & !7, col: mv.col & !7 } };
        let due = finished(predict_whole(&picture, at, mv, set, full).unwrap(), &residue, true);
        assert_eq!(due, reconstruct_whole_pixel(&picture, at, mv, full, skip, &whole).unwrap());
        let copied = reconstruct_inter_mb_whole_pixel(&lent, mb_col, mb_row, mv, full, skip, y2, &replaced, u, v);
        assert_eq!(Ok(due), copied);
    }
}

#[test]
fn each_coefficient_has_its_range() {
    let picture = Picture::from(flat());
    let mv = Mv::default();
    let number = |answer: Result<ReconstructedMb, Refusal>| answer.err().map_or(0, Refusal::number);
    for place in 0..COEFFICIENTS {
        let limit = if place < 16 { 16383 } else { 4095 };
        let replaced = (16..16 + 256).contains(&place) && place % 16 == 0;
        for (value, beyond) in [(limit, false), (-limit, false), (limit + 1, true), (-limit - 1, true), (i16::MIN, true)] {
            let mut coefficients = [0; COEFFICIENTS];
            coefficients[place] = value;
            for skip in [false, true] {
                let due = if beyond && !replaced && !skip { 11 } else { 0 };
                for set in SETS {
                    assert_eq!(due, number(reconstruct_whole(&picture, FIRST, mv, set, false, skip, &coefficients)));
                }
                assert_eq!(due, number(reconstruct_whole_pixel(&picture, FIRST, mv, false, skip, &coefficients)));
                if place >= 16 {
                    let due = if beyond && !skip { 11 } else { 0 };
                    let mvs = [mv; 16];
                    let answer = reconstruct_split(&picture, FIRST, &mvs, SETS[0], false, skip, &coefficients[16..]);
                    assert_eq!(due, number(answer));
                }
            }
        }
    }
}

#[test]
fn another_count_is_refused() {
    let picture = Picture::from(flat());
    let mv = Mv::default();
    let long = [0; COEFFICIENTS + 1];
    for count in 0..=COEFFICIENTS + 1 {
        for skip in [false, true] {
            let due = |right: usize| if count == right { None } else { Some(Refusal::BadCoefficients) };
            let numbers = &long[..count];
            let whole = reconstruct_whole(&picture, FIRST, mv, SETS[0], false, skip, numbers);
            let copied = reconstruct_whole_pixel(&picture, FIRST, mv, false, skip, numbers);
            let split = reconstruct_split(&picture, FIRST, &[mv; 16], SETS[0], false, skip, numbers);
            assert_eq!((whole.err(), copied.err()), (due(COEFFICIENTS), due(COEFFICIENTS)));
            assert_eq!(split.err(), due(SPLIT_COEFFICIENTS));
        }
    }
}

#[test]
fn eleven_comes_last() {
    let picture = Picture::from(flat());
    let (mv, between) = (Mv::default(), Mv { row: 0, col: 4 });
    let faults = [
        (Picture { mb_cols: 1025, ..picture }, FIRST, Refusal::BadSize),
        (Picture { y_stride: 15, ..picture }, FIRST, Refusal::BadStride),
        (Picture { u: &FLAT.1[1..], ..picture }, FIRST, Refusal::ShortPlane),
        (picture, Position { mb_col: 0, mb_row: 1 }, Refusal::OutsidePicture),
    ];
    for (picture, at, due) in faults {
        assert_eq!(reconstruct_whole(&picture, at, mv, SETS[0], false, false, &[]), Err(due));
        assert_eq!(reconstruct_whole_pixel(&picture, at, between, false, false, &[]), Err(due));
        assert_eq!(reconstruct_split(&picture, at, &[mv; 16], SETS[1], true, true, &[]), Err(due));
    }
    assert_eq!(reconstruct_whole_pixel(&picture, FIRST, between, false, false, &[]), Err(Refusal::FractionLeft));
    assert_eq!(reconstruct_whole_pixel(&picture, FIRST, between, true, false, &[]), Err(Refusal::BadCoefficients));
}

#[test]
fn the_originals_calls_panic_with_words() {
    let said = |call: &(dyn Fn() -> ReconstructedMb + std::panic::RefUnwindSafe)| {
        *catch_unwind(call).unwrap_err().downcast::<String>().unwrap()
    };
    let (mv, taps) = (Mv::default(), SETS[0].taps());
    let (y2, u) = ([0; 16], [[0; 16]; 4]);
    let mut y = [[0; 16]; 16];
    y[15][15] = -4096;
    let beyond = "the count of coefficients is wrong, or one is beyond its range (threshowl 11)";
    assert_eq!(said(&|| reconstruct_inter_mb(&flat(), 0, 0, mv, false, taps, false, &y2, &y, &u, &u)), beyond);
    assert_eq!(said(&|| reconstruct_split_mv_mb(&flat(), 0, 0, &[mv; 16], false, taps, false, &y, &u, &u)), beyond);
    let copied = || reconstruct_inter_mb_whole_pixel(&flat(), 0, 0, mv, false, false, &y2, &y, &u, &u).unwrap();
    assert_eq!(said(&copied), beyond);
    let table = said(&|| reconstruct_inter_mb(&flat(), 0, 0, mv, false, &[[1; 6]; 8], false, &y2, &y, &u, &u));
    assert_eq!(table, "the table of taps is neither six-tap nor bilinear (threshowl 5)");
}

#[test]
fn a_fraction_is_looked_for_first() {
    let short = ReferencePlanes { y: &[], ..flat() };
    let (y2, y, u) = ([i16::MAX; 16], [[0; 16]; 16], [[0; 16]; 4]);
    let answer = reconstruct_inter_mb_whole_pixel(&short, 9, 9, Mv { row: 1, col: 0 }, false, false, &y2, &y, &u, &u);
    assert_eq!(answer, Err(MotionCompError::SubPixelNotSupported));
}

/// Indices with one of six at its end, all others at the other, and the six factors of number i that go with them.
fn one_at_its_end(which: usize) -> (QuantIndices, impl Fn(usize) -> i16) {
    let mut deltas = [-128; 5];
    let base = if which == 1 { 127 } else { 0 };
    if which != 1 {
        deltas[[0, 0, 1, 2, 3, 4][which]] = 128;
    }
    let [y_dc_delta, y2_dc_delta, y2_ac_delta, uv_dc_delta, uv_ac_delta] = deltas;
    let indices = QuantIndices { y_ac_qi: base, y_dc_delta, y2_dc_delta, y2_ac_delta, uv_dc_delta, uv_ac_delta };
    let ends = [[4, 157], [4, 284], [8, 314], [8, 440], [4, 132], [4, 284]];
    let factor = move |i: usize| {
        let plane = if i < 16 { 2 } else { 4 * usize::from(i >= 272) };
        let kind = plane + usize::from(i % 16 > 0);
        ends[kind][usize::from(kind == which)]
    };
    (indices, factor)
}

#[test]
fn levels_are_multiplied() {
    let mut draw = Draw::new();
    for turn in 0..600 {
        let planes = Planes::drawn(&mut draw);
        let picture = Picture::from(reference(&planes));
        let (indices, factor) = one_at_its_end(turn % 6);
        let levels: [i16; COEFFICIENTS] = std::array::from_fn(|_| draw.below(19) as i16 - 9);
        let products: [i16; COEFFICIENTS] = std::array::from_fn(|i| levels[i] * factor(i));
        let at = Position { mb_col: planes.mb_col, mb_row: planes.mb_row };
        let (mv, set, skip) = (vector(&mut draw), SETS[turn % 2], turn % 5 == 4);
        let mvs: [Mv; 16] = std::array::from_fn(|_| vector(&mut draw));
        let whole = reconstruct_whole(&picture, at, mv, set, false, skip, &products);
        assert!(whole.is_ok());
        assert_eq!(reconstruct_whole_from_levels(&picture, at, mv, set, false, skip, &levels, indices), whole);
        let pixel = reconstruct_whole_pixel(&picture, at, mv, true, skip, &products);
        assert_eq!(reconstruct_whole_pixel_from_levels(&picture, at, mv, true, skip, &levels, indices), pixel);
        let split = reconstruct_split(&picture, at, &mvs, set, true, skip, &products[16..]);
        assert!(split.is_ok());
        assert_eq!(reconstruct_split_from_levels(&picture, at, &mvs, set, true, skip, &levels[16..], indices), split);
    }
}

#[test]
fn levels_are_refused_by_their_products() {
    let picture = Picture::from(flat());
    let last = QuantIndices { y_ac_qi: i32::MAX, uv_ac_delta: i32::MAX, ..Default::default() };
    let finish = |levels: &[i16]| {
        reconstruct_whole_from_levels(&picture, FIRST, Mv::default(), FilterSet::Sixtap, false, false, levels, last)
    };
    let mut levels = [0; COEFFICIENTS];
    for (i, most) in [(0, 52), (1, 37), (17, 14), (272, 31), (399, 14)] {
        for (level, accepted) in [(most, true), (-most, true), (most + 1, false), (-most - 1, false), (i16::MIN, false)] {
            levels[i] = level;
            assert_eq!(finish(&levels).is_ok(), accepted, "level {level} in place {i}");
        }
        levels[i] = 0;
    }
    levels[16] = i16::MAX; // Y2 replaces what it stands for
    assert!(finish(&levels).is_ok());
    assert_eq!(finish(&levels[1..]), Err(Refusal::BadCoefficients));
}
