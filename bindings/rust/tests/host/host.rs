// A host of motion_comp: everything that the crate offers under the original's names, called with what is drawn and written down.
// beside_original.rs takes it in twice, with one `use` line that differs.

fn planes(planes: &Planes) -> motion_comp::ReferencePlanes<'_> {
    let Planes { y, u, v, y_stride, uv_stride, mb_cols, mb_rows, .. } = planes;
    motion_comp::ReferencePlanes { y, u, v, y_stride: *y_stride, uv_stride: *uv_stride, mb_cols: *mb_cols, mb_rows: *mb_rows }
}

fn vector(draw: &mut Draw) -> motion_vector::Mv {
    let (row, col) = draw.vector();
    motion_vector::Mv { row, col }
}

fn written(mb: &reconstruct::ReconstructedMb) -> Vec<u8> {
    [&mb.y[..], &mb.u[..], &mb.v[..]].concat()
}

fn numbers(mvs: &[motion_vector::Mv]) -> Vec<u8> {
    mvs.iter().flat_map(|mv| [mv.row.to_le_bytes(), mv.col.to_le_bytes()].concat()).collect()
}

/// The tables, and which version takes which.
pub fn tables() -> Vec<u8> {
    let chosen = (0..=255).map(motion_comp::filter_set_for_version);
    let each = chosen.map(|set| (set == motion_comp::FilterSet::Sixtap, set.taps()));
    let mut bytes: Vec<u8> =
        each.flat_map(|(six, taps)| [vec![six.into()], taps.concat().iter().map(|tap| *tap as u8).collect()].concat()).collect();
    for table in [&motion_comp::SIXTAP_FILTERS, &motion_comp::BILINEAR_FILTERS] {
        bytes.extend(table.concat().iter().flat_map(|tap| tap.to_le_bytes()));
    }
    bytes
}

/// The functions on vectors, and the three predictions.
pub fn drawn(draw: &mut Draw) -> Vec<u8> {
    let lent = Planes::drawn(draw);
    let reference = planes(&lent);
    let (col, row) = (lent.mb_col, lent.mb_row);
    let mv = vector(draw);
    let equal = draw.below(4) == 0;
    let mvs = [(); 16].map(|()| if equal { mv } else { vector(draw) });
    let full_pixel = draw.coin();
    let taps = if draw.coin() { motion_comp::FilterSet::Sixtap } else { motion_comp::FilterSet::Bilinear }.taps();

    let stored = motion_comp::stored_luma_mv(mv);
    let mut bytes =
        numbers(&[stored, motion_comp::chroma_mv(mv), motion_comp::chroma_mv(stored), motion_comp::apply_full_pixel(mv)]);
    bytes.extend(numbers(&motion_comp::split_chroma_mvs(&mvs)));
    bytes.push(motion_comp::whole_pixel_fraction_is_zero(mv).into());
    bytes.extend((0..16).map(|b| motion_comp::chroma_idx_for_luma_subblock(b) as u8));
    bytes.extend(written(&motion_comp::predict_inter_mb(&reference, col, row, mv, full_pixel, taps)));
    bytes.extend(written(&motion_comp::predict_split_mv(&reference, col, row, &mvs, full_pixel, taps)));
    match motion_comp::predict_inter_mb_whole_pixel(&reference, col, row, mv, full_pixel) {
        Ok(mb) => bytes.extend(written(&mb)),
        Err(error) => bytes.push((error == motion_comp::MotionCompError::SubPixelNotSupported).into()),
    }
    bytes
}

/// Whether the residue was skipped, and the three calls that add it.
pub fn finished(draw: &mut Draw) -> (bool, [Vec<u8>; 3]) {
    let lent = Planes::drawn(draw);
    let reference = planes(&lent);
    let (col, row) = (lent.mb_col, lent.mb_row);
    let residue = Residue::drawn(draw);
    let Residue { skip, y2, y, u, v } = &residue;
    let replaced = residue.y_replaced(draw);
    let mv = vector(draw);
    let whole = motion_vector::Mv { row: mv.row & !7, col: mv.col & !7 };
    let mvs = [(); 16].map(|()| vector(draw));
    let full_pixel = draw.coin();
    let taps = if draw.coin() { motion_comp::FilterSet::Sixtap } else { motion_comp::FilterSet::Bilinear }.taps();

    let filtered = motion_comp::reconstruct_inter_mb(&reference, col, row, mv, full_pixel, taps, *skip, y2, &replaced, u, v);
    let any = if draw.below(4) == 0 { mv } else { whole };
    let copied = motion_comp::reconstruct_inter_mb_whole_pixel(&reference, col, row, any, full_pixel, *skip, y2, &replaced, u, v);
    let copied = match copied {
        Ok(mb) => written(&mb),
        Err(error) => vec![(error == motion_comp::MotionCompError::SubPixelNotSupported).into()],
    };
    let split = motion_comp::reconstruct_split_mv_mb(&reference, col, row, &mvs, full_pixel, taps, *skip, y, u, v);
    (*skip, [written(&filtered), copied, written(&split)])
}
