//! The original's motion_comp and this crate's, under one host. Built where RUST names the original's folder.
#![cfg(original)]

mod draws;

include!(concat!(env!("OUT_DIR"), "/original.rs"));

mod with_original {
    use crate::draws::{Draw, Planes, Residue};
    use crate::{motion_comp, motion_vector, reconstruct};
    include!("host/host.rs");
}

mod with_threshowl {
    use crate::draws::{Draw, Planes, Residue};
    use threshowl::{motion_comp, motion_vector, reconstruct};
    include!("host/host.rs");
}

#[test]
fn every_byte_is_the_originals() {
    assert_eq!(with_threshowl::tables(), with_original::tables());
    let (mut own, mut due) = (draws::Draw::new(), draws::Draw::new());
    let mut compared = 0;
    for macroblock in 0..100_000 {
        let bytes = with_threshowl::drawn(&mut own);
        assert_eq!(bytes, with_original::drawn(&mut due), "macroblock {macroblock}");
        compared += bytes.len();
    }
    println!("beside the original: 100000 macroblocks, {compared} bytes, none differs");
}

#[test]
fn every_finished_sample_is_the_originals() {
    let (mut own, mut due) = (draws::Draw::new(), draws::Draw::new());
    let (mut finished, mut skipped) = ([0; 3], [0; 3]);
    for macroblock in 0..50_000 {
        let (skip, calls) = with_threshowl::finished(&mut own);
        assert_eq!((skip, calls.clone()), with_original::finished(&mut due), "macroblock {macroblock}");
        let counts = if skip { &mut skipped } else { &mut finished };
        counts.iter_mut().zip(calls).for_each(|(count, bytes)| *count += usize::from(bytes.len() == 384));
    }
    println!("beside the original: finished {finished:?} whole, at whole pixels and split, skipped {skipped:?}; none differs");
}

/// A frame by one call, each macroblock beside the original's call for its order.
#[test]
fn every_frame_is_the_originals() {
    use draws::{Draw, Lent, Pictures, Planes as Drawn};
    use threshowl::frame::{predict_frame, Frame, Order, Planes, References};
    use threshowl::motion_comp::RefFrame;
    use threshowl::motion_vector::Mv;
    use threshowl::tables::FilterSet;

    const REFERENCES: [RefFrame; 3] = [RefFrame::Last, RefFrame::Golden, RefFrame::AltRef];
    let mut draw = Draw::new();
    let mut macroblocks = 0;
    for frame in 0..10_000 {
        let pictures = Pictures::drawn(&mut draw);
        let Drawn { y_stride, uv_stride, mb_cols, mb_rows, .. } = pictures.size;
        let (six, full_pixel) = (draw.coin(), draw.coin());
        let taps = if six { motion_comp::FilterSet::Sixtap } else { motion_comp::FilterSet::Bilinear }.taps();
        let [mut y, mut u, mut v] = [16, 8, 8].map(|side| Lent::drawn(&mut draw, &pictures.size, side));
        let mut orders = Vec::new();
        for at in 0..mb_cols * mb_rows {
            let (col, row, reference) = (at % mb_cols, at / mb_cols, draw.below(3));
            let [from_y, from_u, from_v] = &pictures.planes[reference];
            let from = motion_comp::ReferencePlanes { y: from_y, u: from_u, v: from_v, y_stride, uv_stride, mb_cols, mb_rows };
            let equal = draw.coin().then(|| draw.vector());
            let drawn = [(); 16].map(|()| equal.unwrap_or_else(|| draw.vector()));
            let (mb, order) = if draw.coin() {
                let mv = motion_vector::Mv { row: drawn[0].0, col: drawn[0].1 };
                let order = Order::Whole(REFERENCES[reference], Mv { row: mv.row, col: mv.col });
                (motion_comp::predict_inter_mb(&from, col, row, mv, full_pixel, taps), order)
            } else {
                let mvs = drawn.map(|(row, col)| motion_vector::Mv { row, col });
                let order = Order::Split(REFERENCES[reference], drawn.map(|(row, col)| Mv { row, col }));
                (motion_comp::predict_split_mv(&from, col, row, &mvs, full_pixel, taps), order)
            };
            y.put(col, row, &mb.y);
            u.put(col, row, &mb.u);
            v.put(col, row, &mb.v);
            orders.extend(order.bytes());
        }
        macroblocks += mb_cols * mb_rows;
        let [last, golden, altref] = [0, 1, 2].map(|r: usize| {
            let [y, u, v] = &pictures.planes[r];
            Planes { y, u, v }
        });
        let references =
            References { last, golden, altref, y_stride, u_stride: uv_stride, v_stride: uv_stride, mb_cols, mb_rows };
        let (y_stride, u_stride, v_stride) = (y.stride, u.stride, v.stride);
        let mut out = Frame { y: &mut y.bytes, u: &mut u.bytes, v: &mut v.bytes, y_stride, u_stride, v_stride };
        let filter = if six { FilterSet::Sixtap } else { FilterSet::Bilinear };
        assert_eq!(predict_frame(&references, &orders, filter, full_pixel, &mut out), Ok(()), "frame {frame}");
        assert!(y.as_due() && u.as_due() && v.as_due(), "frame {frame}");
    }
    println!("beside the original: 10000 frames, {macroblocks} macroblocks, none differs");
}
