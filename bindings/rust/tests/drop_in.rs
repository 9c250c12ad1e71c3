//! The crate's motion_comp.rs in a decoder's own tree, over the decoder's own vector and samples.

mod draws;

#[path = "../src/motion_comp.rs"]
#[allow(dead_code, unused_imports)]
mod motion_comp;

mod motion_vector {
    #[derive(Clone, Copy)]
    pub struct Mv {
        pub row: i16,
        pub col: i16,
    }
}

mod reconstruct {
    #[derive(Debug)]
    pub struct ReconstructedMb {
        pub y: [u8; 256],
        pub u: [u8; 64],
        pub v: [u8; 64],
    }
}

#[test]
fn it_answers_as_the_crate_does() {
    let mut draw = draws::Draw::new();
    for _ in 0..200 {
        let planes = draws::Planes::drawn(&mut draw);
        let draws::Planes { y, u, v, y_stride, uv_stride, mb_cols, mb_rows, mb_col, mb_row } = &planes;
        let (row, col) = draw.vector();
        let own = motion_comp::ReferencePlanes {
            y,
            u,
            v,
            y_stride: *y_stride,
            uv_stride: *uv_stride,
            mb_cols: *mb_cols,
            mb_rows: *mb_rows,
        };
        let crates = threshowl::motion_comp::ReferencePlanes {
            y,
            u,
            v,
            y_stride: *y_stride,
            uv_stride: *uv_stride,
            mb_cols: *mb_cols,
            mb_rows: *mb_rows,
        };
        let taps = motion_comp::filter_set_for_version(0).taps();
        let got = motion_comp::predict_inter_mb(&own, *mb_col, *mb_row, motion_vector::Mv { row, col }, false, taps);
        let mv = threshowl::motion_vector::Mv { row, col };
        let due = threshowl::motion_comp::predict_inter_mb(&crates, *mb_col, *mb_row, mv, false, taps);
        assert_eq!((got.y, got.u, got.v), (due.y, due.u, due.v));

        let draws::Residue { skip, y2, y, u, v } = draws::Residue::drawn(&mut draw);
        let mvs = [(row, col); 16].map(|(row, col)| motion_vector::Mv { row, col });
        let got = motion_comp::reconstruct_split_mv_mb(&own, *mb_col, *mb_row, &mvs, true, taps, skip, &y, &u, &v);
        let due =
            threshowl::motion_comp::reconstruct_split_mv_mb(&crates, *mb_col, *mb_row, &[mv; 16], true, taps, skip, &y, &u, &v);
        assert_eq!((got.y, got.u, got.v), (due.y, due.u, due.v));
        let own_mv = motion_vector::Mv { row, col };
        let got = motion_comp::reconstruct_inter_mb(&own, *mb_col, *mb_row, own_mv, true, taps, skip, &y2, &y, &u, &v);
        let due = threshowl::motion_comp::reconstruct_inter_mb(&crates, *mb_col, *mb_row, mv, true, taps, skip, &y2, &y, &u, &v);
        assert_eq!((got.y, got.u, got.v), (due.y, due.u, due.v));
    }
}
