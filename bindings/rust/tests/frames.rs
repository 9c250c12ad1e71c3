//! Whole frames beside single calls, and what is refused.

mod draws;

use draws::{Draw, Lent, Pictures, Planes as Drawn};
use threshowl::frame::{predict_frame, Frame, Order, Planes, References};
use threshowl::motion_comp::RefFrame;
use threshowl::motion_vector::Mv;
use threshowl::prediction::{predict_split, predict_whole, Picture, Position};
use threshowl::tables::FilterSet;
use threshowl::Refusal;

const REFERENCES: [RefFrame; 3] = [RefFrame::Last, RefFrame::Golden, RefFrame::AltRef];

fn planes(pictures: &Pictures, reference: usize) -> Planes<'_> {
    let [y, u, v] = &pictures.planes[reference];
    Planes { y, u, v }
}

fn references(pictures: &Pictures) -> References<'_> {
    let Drawn { y_stride, uv_stride, mb_cols, mb_rows, .. } = pictures.size;
    let [last, golden, altref] = [0, 1, 2].map(|reference| planes(pictures, reference));
    References { last, golden, altref, y_stride, u_stride: uv_stride, v_stride: uv_stride, mb_cols, mb_rows }
}

fn picture(pictures: &Pictures, reference: RefFrame) -> Picture<'_> {
    let Drawn { y_stride, uv_stride, mb_cols, mb_rows, .. } = pictures.size;
    let Planes { y, u, v } = planes(pictures, reference as usize);
    Picture { y, u, v, y_stride, u_stride: uv_stride, v_stride: uv_stride, mb_cols, mb_rows }
}

fn vector(draw: &mut Draw) -> Mv {
    let (row, col) = draw.vector();
    Mv { row, col }
}

fn order(draw: &mut Draw) -> Order {
    let reference = REFERENCES[draw.below(3)];
    match draw.below(3) {
        0 => Order::Whole(reference, vector(draw)),
        1 => Order::Split(reference, [vector(draw); 16]),
        _ => Order::Split(reference, [(); 16].map(|()| vector(draw))),
    }
}

#[test]
fn each_macroblock_is_the_single_call() {
    let mut draw = Draw::new();
    for _ in 0..600 {
        let pictures = Pictures::drawn(&mut draw);
        let (filter, full_pixel) = ([FilterSet::Sixtap, FilterSet::Bilinear][draw.below(2)], draw.coin());
        let [mut y, mut u, mut v] = [16, 8, 8].map(|side| Lent::drawn(&mut draw, &pictures.size, side));
        let mut orders = Vec::new();
        for mb_row in 0..pictures.size.mb_rows {
            for mb_col in 0..pictures.size.mb_cols {
                let (order, at) = (order(&mut draw), Position { mb_col, mb_row });
                let mb = match order {
                    Order::Whole(reference, mv) => predict_whole(&picture(&pictures, reference), at, mv, filter, full_pixel),
                    Order::Split(reference, mvs) => predict_split(&picture(&pictures, reference), at, &mvs, filter, full_pixel),
                };
                let mb = mb.unwrap();
                y.put(mb_col, mb_row, &mb.y);
                u.put(mb_col, mb_row, &mb.u);
                v.put(mb_col, mb_row, &mb.v);
                orders.extend(order.bytes());
            }
        }
        let mut frame = Frame {
            y: &mut y.bytes,
            u: &mut u.bytes,
            v: &mut v.bytes,
            y_stride: y.stride,
            u_stride: u.stride,
            v_stride: v.stride,
        };
        assert_eq!(predict_frame(&references(&pictures), &orders, filter, full_pixel, &mut frame), Ok(()));
        assert!(y.as_due() && u.as_due() && v.as_due());
    }
}

#[test]
fn refusals_keep_every_byte() {
    let mut draw = Draw::new();
    let pictures = Pictures::drawn(&mut draw);
    let (cols, rows) = (pictures.size.mb_cols, pictures.size.mb_rows);
    let orders: Vec<u8> = (0..cols * rows).flat_map(|_| order(&mut draw).bytes()).collect();
    let good = references(&pictures);
    let with = |at: usize, code: u8| {
        let mut other = orders.clone();
        other[at] = code;
        other
    };
    let short = Planes { y: &[], ..good.golden };
    let last = orders.len() - 66;
    let cases = [
        (References { mb_rows: 0, ..good }, orders.clone(), 0, Refusal::BadSize),
        (References { v_stride: 0, ..good }, orders.clone(), 0, Refusal::BadStride),
        (References { golden: short, ..good }, orders[1..].to_vec(), 1, Refusal::ShortPlane),
        (good, orders[1..].to_vec(), 1, Refusal::BadOut),
        (good, orders[1..].to_vec(), 0, Refusal::BadOrders),
        (good, with(last, 3), 0, Refusal::BadOrders),
        (good, with(last + 1, 2), 0, Refusal::BadOrders),
    ];
    for (references, orders, missing, refusal) in cases {
        let [mut y, mut u, mut v] = [16, 8, 8].map(|side| vec![7; cols * rows * side * side]);
        v.truncate(v.len() - missing);
        let mut frame = Frame { y: &mut y, u: &mut u, v: &mut v, y_stride: cols * 16, u_stride: cols * 8, v_stride: cols * 8 };
        assert_eq!(predict_frame(&references, &orders, FilterSet::Sixtap, false, &mut frame), Err(refusal));
        assert!([y, u, v].concat().iter().all(|byte| *byte == 7));
    }
}
