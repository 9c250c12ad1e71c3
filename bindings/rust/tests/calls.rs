//! The calls beside one another, and what they refuse.

mod draws;

use draws::{Draw, Planes};
use std::panic::catch_unwind;
use threshowl::motion_comp::{predict_inter_mb, predict_inter_mb_whole_pixel, predict_split_mv, ReferencePlanes};
use threshowl::motion_vector::Mv;
use threshowl::prediction::{
    predict_merging, predict_quarters, predict_report, predict_split, predict_split_by_version, predict_whole,
    predict_whole_by_version, Clipped, FullPixel, Kind, Picture, Position,
};
use threshowl::reconstruct::ReconstructedMb;
use threshowl::tables::FilterSet;
use threshowl::{ivf, y4m, Refusal};

const SETS: [FilterSet; 2] = [FilterSet::Sixtap, FilterSet::Bilinear];
const FIRST: Position = Position { mb_col: 0, mb_row: 0 };

fn reference(planes: &Planes) -> ReferencePlanes<'_> {
    let Planes { y, u, v, y_stride, uv_stride, mb_cols, mb_rows, .. } = planes;
    ReferencePlanes { y, u, v, y_stride: *y_stride, uv_stride: *uv_stride, mb_cols: *mb_cols, mb_rows: *mb_rows }
}

fn position(planes: &Planes) -> Position {
    Position { mb_col: planes.mb_col, mb_row: planes.mb_row }
}

fn vector(draw: &mut Draw) -> Mv {
    let (row, col) = draw.vector();
    Mv { row, col }
}

/// One, one for each quarter, or any; then maybe one of them another.
fn sixteen(draw: &mut Draw) -> [Mv; 16] {
    let four = [(); 4].map(|()| vector(draw));
    let mut mvs: [Mv; 16] = match draw.below(3) {
        0 => [four[0]; 16],
        1 => std::array::from_fn(|b| four[b / 8 * 2 + b % 4 / 2]),
        _ => [(); 16].map(|()| vector(draw)),
    };
    if draw.coin() {
        mvs[draw.below(16)] = vector(draw);
    }
    mvs
}

/// One macroblock of one value.
const FLAT: ([u8; 256], [u8; 64]) = ([7; 256], [9; 64]);

fn flat() -> Picture<'static> {
    let (y, uv) = (&FLAT.0, &FLAT.1);
    Picture { y, u: uv, v: uv, y_stride: 16, u_stride: 8, v_stride: 8, mb_cols: 1, mb_rows: 1 }
}

#[test]
fn whole_pixels_are_the_clamped_picture() {
    let mut draw = Draw::new();
    for _ in 0..2000 {
        let planes = Planes::drawn(&mut draw);
        let (down, right) = (draw.below(81) as isize - 40, draw.below(81) as isize - 40);
        let mv = Mv { row: 8 * down as i16, col: 8 * right as i16 };
        let mb = predict_inter_mb_whole_pixel(&reference(&planes), planes.mb_col, planes.mb_row, mv, false).unwrap();
        let sought = |plane: &[u8], stride: usize, side: usize, scale: isize, place: usize| {
            let clamped = |at: usize, moved: isize, within: usize| {
                (at as isize + moved * scale).clamp(0, (within * side) as isize - 1) as usize
            };
            let row = clamped(planes.mb_row * side + place / side, down, planes.mb_rows);
            let col = clamped(planes.mb_col * side + place % side, right, planes.mb_cols);
            plane[row * stride + col]
        };
        for place in 0..256 {
            assert_eq!(mb.y[place], sought(&planes.y, planes.y_stride, 16, 2, place));
        }
        for place in 0..64 {
            assert_eq!(mb.u[place], sought(&planes.u, planes.uv_stride, 8, 1, place));
            assert_eq!(mb.v[place], sought(&planes.v, planes.uv_stride, 8, 1, place));
        }
    }
}

#[test]
fn lowered_vectors_are_whole_pixels() {
    let mut draw = Draw::new();
    for _ in 0..1000 {
        let planes = Planes::drawn(&mut draw);
        let (lent, at, mv) = (reference(&planes), position(&planes), vector(&mut draw));
        let due = predict_inter_mb(&lent, at.mb_col, at.mb_row, mv, true, SETS[draw.below(2)].taps());
        assert_eq!(predict_inter_mb_whole_pixel(&lent, at.mb_col, at.mb_row, mv, true), Ok(due));
    }
}

#[test]
fn the_calls_agree() {
    let mut draw = Draw::new();
    for _ in 0..5000 {
        let planes = Planes::drawn(&mut draw);
        let (lent, at) = (reference(&planes), position(&planes));
        let picture = Picture::from(lent);
        let (mvs, set, full) = (sixteen(&mut draw), SETS[draw.below(2)], draw.coin());
        let split = predict_split(&picture, at, &mvs, set, full).unwrap();
        let whole = predict_whole(&picture, at, mvs[0], set, full).unwrap();
        assert_eq!(split, predict_merging(&picture, at, &mvs, set, full).unwrap());
        assert_eq!(split, predict_quarters(&picture, at, &mvs, set, full).unwrap());
        assert_eq!(split, predict_split_mv(&lent, at.mb_col, at.mb_row, &mvs, full, set.taps()));
        assert_eq!(whole, predict_inter_mb(&lent, at.mb_col, at.mb_row, mvs[0], full, set.taps()));
        let clipped = predict_report(&picture, at, &mvs, Kind::Split, set, full).unwrap().clipped;
        for (kind, due) in [(Kind::Whole, whole), (Kind::Split, split), (Kind::Merging, split), (Kind::Quarters, split)] {
            let report = predict_report(&picture, at, &mvs, kind, set, full).unwrap();
            assert_eq!(report.mb, due);
            assert!((384..=1944).contains(&report.fetched));
            assert!(report.fetched == 384 || !full);
            let Clipped { low, high } = report.clipped;
            assert!(low + high <= 384 && (low + high == 0 || !full && set == FilterSet::Sixtap));
            assert!(kind == Kind::Whole || report.clipped == clipped);
        }
        let near = |z: i16| (-16384..=16383).contains(&z);
        if mvs == [mvs[0]; 16] && near(mvs[0].row) && near(mvs[0].col) {
            assert_eq!(split, whole);
        }
        for (version, set, full) in [(0, SETS[0], false), (1, SETS[1], false), (2, SETS[1], false), (3, SETS[1], true)] {
            let split = predict_split(&picture, at, &mvs, set, full).unwrap();
            let whole = predict_whole(&picture, at, mvs[0], set, full).unwrap();
            let mode = FullPixel::LumaAndChroma;
            assert_eq!(split, predict_split_by_version(&picture, at, &mvs, version, mode).unwrap());
            assert_eq!(whole, predict_whole_by_version(&picture, at, mvs[0], version, mode).unwrap());
            let mode = FullPixel::ChromaAlone;
            let (split, whole) = ((split.u, split.v), (whole.u, whole.v));
            let by_version = predict_split_by_version(&picture, at, &mvs, version, mode).unwrap();
            assert_eq!(
                (split, predict_split(&picture, at, &mvs, set, false).unwrap().y),
                ((by_version.u, by_version.v), by_version.y)
            );
            let by_version = predict_whole_by_version(&picture, at, mvs[0], version, mode).unwrap();
            assert_eq!(
                (whole, predict_whole(&picture, at, mvs[0], set, false).unwrap().y),
                ((by_version.u, by_version.v), by_version.y)
            );
        }
    }
}

#[test]
fn each_fault_has_its_refusal() {
    let mvs = [Mv::default(); 16];
    let long = [0; 40000];
    let cases = [
        (Picture { mb_cols: 0, ..flat() }, FIRST, Refusal::BadSize),
        (Picture { mb_rows: 1025, ..flat() }, FIRST, Refusal::BadSize),
        (Picture { y_stride: 15, ..flat() }, FIRST, Refusal::BadStride),
        (Picture { u_stride: 7, ..flat() }, FIRST, Refusal::BadStride),
        (Picture { v: &long, v_stride: 32769, ..flat() }, FIRST, Refusal::BadStride),
        (Picture { y: &[], ..flat() }, FIRST, Refusal::ShortPlane),
        (Picture { v: &FLAT.1[1..], ..flat() }, FIRST, Refusal::ShortPlane),
        (flat(), Position { mb_col: 1, mb_row: 0 }, Refusal::OutsidePicture),
        (flat(), Position { mb_col: 0, mb_row: usize::MAX }, Refusal::OutsidePicture),
    ];
    for (picture, at, due) in cases {
        for set in SETS {
            assert_eq!(predict_whole(&picture, at, mvs[0], set, false), Err(due));
            assert_eq!(predict_split(&picture, at, &mvs, set, true), Err(due));
            assert_eq!(predict_merging(&picture, at, &mvs, set, false), Err(due));
            assert_eq!(predict_quarters(&picture, at, &mvs, set, false), Err(due));
            for kind in [Kind::Whole, Kind::Split, Kind::Merging, Kind::Quarters] {
                assert_eq!(predict_report(&picture, at, &mvs, kind, set, false), Err(due));
            }
        }
        for mode in [FullPixel::LumaAndChroma, FullPixel::ChromaAlone] {
            assert_eq!(predict_whole_by_version(&picture, at, mvs[0], 3, mode), Err(due));
            assert_eq!(predict_split_by_version(&picture, at, &mvs, 0, mode), Err(due));
            assert_eq!(predict_whole_by_version(&picture, at, mvs[0], 4, mode), Err(Refusal::ReservedVersion));
            assert_eq!(predict_split_by_version(&picture, at, &mvs, 255, mode), Err(Refusal::ReservedVersion));
        }
    }
}

#[test]
fn the_originals_calls_panic_with_words() {
    let uv = &FLAT.1;
    let planes = ReferencePlanes { y: &FLAT.0, u: uv, v: uv, y_stride: 16, uv_stride: 8, mb_cols: 1, mb_rows: 1 };
    let said = |call: &(dyn Fn() -> ReconstructedMb + std::panic::RefUnwindSafe)| {
        *catch_unwind(call).unwrap_err().downcast::<String>().unwrap()
    };
    let mv = Mv::default();
    let outside = said(&|| predict_inter_mb(&planes, 3, 0, mv, false, SETS[0].taps()));
    assert_eq!(outside, "the position is outside the picture (threshowl 4)");
    let table = said(&|| predict_split_mv(&planes, 0, 0, &[mv; 16], false, &[[1; 6]; 8]));
    assert_eq!(table, "the table of taps is neither six-tap nor bilinear (threshowl 5)");
}

#[test]
fn a_table_is_known_by_what_stands_in_it() {
    let copied = *FilterSet::Bilinear.taps();
    assert_eq!(FilterSet::of(&copied), Some(FilterSet::Bilinear));
}

#[test]
fn a_refusal_has_a_number_and_words() {
    let header = include_str!("../../../include/threshowl.h");
    let all = [
        (Refusal::BadSize, "BAD_SIZE"),
        (Refusal::BadStride, "BAD_STRIDE"),
        (Refusal::ShortPlane, "SHORT_PLANE"),
        (Refusal::OutsidePicture, "OUTSIDE_PICTURE"),
        (Refusal::BadFilter, "BAD_FILTER"),
        (Refusal::BadVectors, "BAD_VECTORS"),
        (Refusal::BadOut, "BAD_OUT"),
        (Refusal::FractionLeft, "FRACTION_LEFT"),
        (Refusal::ReservedVersion, "RESERVED_VERSION"),
        (Refusal::BadCoefficients, "BAD_COEFFICIENTS"),
        (Refusal::BadHeader, "BAD_HEADER"),
        (Refusal::NoMark, "NO_MARK"),
        (Refusal::ShortFrame, "SHORT_FRAME"),
        (Refusal::NotIvf, "NOT_IVF"),
    ];
    for (refusal, name) in all {
        let value = format!("THRESHOWL_{name} = {}", refusal.number());
        let ends = [",", "\n"].map(|end| format!("{value}{end}"));
        assert!(ends.iter().any(|line| header.contains(line)), "{value}");
        assert!(refusal.to_string().contains(refusal.words()));
    }
}

#[test]
fn frames_come_out_as_they_went_in() {
    let mut draw = Draw::new();
    for _ in 0..200 {
        let (width, height) = (1 + draw.below(50), 1 + draw.below(50));
        let mut file = format!("YUV4MPEG2 W{width} H{height}\n").into_bytes();
        let header = y4m::header(&file).unwrap();
        assert_eq!((header.width, header.height, header.taken), (width, height, file.len()));
        file.extend(b"FRAME\n");
        file.extend((6..y4m::frame_len(width, height)).map(|_| draw.number() as u8));
        let body = &file[header.taken..];
        let mut frame = vec![0; y4m::padded_len(width, height)];
        let mut out = vec![0; body.len()];
        assert_eq!(y4m::read_frame(body, width, height, &mut frame), Ok(body.len()));
        assert_eq!(y4m::write_frame(&frame, width, height, &mut out), Ok(body.len()));
        assert_eq!(out, body);

        let picture = y4m::picture(&frame, width, height).unwrap();
        let mb = predict_whole(&picture, FIRST, Mv::default(), FilterSet::Sixtap, false).unwrap();
        assert_eq!((mb.y[0], mb.u[0]), (body[6], body[6 + width * height]));
        assert!(y4m::picture(&frame[1..], width, height).is_none());

        let cut = &body[..body.len() - 1];
        assert_eq!(y4m::read_frame(cut, width, height, &mut frame), Err(Refusal::ShortFrame));
        assert_eq!(y4m::read_frame(&body[1..], width, height, &mut frame), Err(Refusal::NoMark));
        assert_eq!(y4m::read_frame(body, width, height, &mut []), Err(Refusal::BadOut));
        assert_eq!(y4m::read_frame(body, 0, height, &mut frame), Err(Refusal::BadSize));
        assert_eq!(y4m::write_frame(&[], width, height, &mut out), Err(Refusal::ShortFrame));
        assert_eq!(y4m::read_frame(&[], width, height, &mut []), Ok(0));
    }
}

#[test]
fn a_cut_recording_is_mended_once() {
    let mut file = vec![0; 32];
    file[..4].copy_from_slice(b"DKIF");
    file[6] = 32;
    for size in [5u8, 0, 200] {
        file.extend([size, 0, 0, 0, 0, 0, 0, 0, 0, 0, 0, 0]);
        file.extend(vec![size; size.into()]);
    }
    for dropped in 0..12 + 200 {
        let cut = &file[..file.len() - dropped];
        let mut out = vec![0xEE; cut.len()];
        let done = ivf::mend(cut, &mut out).unwrap();
        let complete = if dropped == 0 { 3 } else { 2 };
        assert_eq!((done.old_count, done.new_count), (0, complete));
        out.truncate(cut.len() - done.dropped as usize);
        let again = ivf::mend(&out.clone(), &mut out).unwrap();
        assert_eq!((again.old_count, again.new_count, again.dropped), (complete, complete, 0));
    }
    assert_eq!(ivf::mend(&file[..31], &mut [0; 31]), Err(Refusal::NotIvf));
    assert_eq!(ivf::mend(&file, &mut []), Err(Refusal::BadOut));
}
