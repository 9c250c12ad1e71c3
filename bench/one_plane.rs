// The functions on one plane and on halos, by the shims of the test crate: a
// shim copies a halo in and the samples out, and so does what stands for it on
// the original's side.

use crate::{turns, Case, PLACES, ROOM};
use sides::one_plane::{self, Place};
use sides::pictures::Picture;
use sides::shims;
use sides::Mv;
use std::hint::black_box;

/// A case, from what each side does with a call and its output.
fn case<'a, C: Copy + 'a>(
    title: String,
    calls: [C; PLACES],
    samples: usize,
    product: impl Fn(&C, &mut [u8]) -> u32 + Copy + 'a,
    original: impl Fn(&C, &mut [u8]) + Copy + 'a,
) -> Case<'a> {
    let agree = move |call: &C| {
        let [mut ours, mut theirs] = [[0; ROOM]; 2];
        let number = product(call, &mut ours[..samples]);
        original(call, &mut theirs[..samples]);
        number == 0 && ours == theirs
    };
    Case {
        title,
        goal: Some(1.0),
        agrees: Box::new(move || calls.iter().all(agree)),
        product: turns(calls, move |call, out| {
            black_box(product(call, &mut out[..samples]));
        }),
        original: turns(calls, move |call, out| original(call, &mut out[..samples])),
    }
}

/// Places in the luma plane: inside, or at its left edge.
fn places(picture: &Picture, inside: bool) -> [Place<'_>; PLACES] {
    let g = picture.geometry;
    std::array::from_fn(|i| Place {
        plane: &picture.y,
        stride: g.y_stride,
        w: g.mb_cols * 16,
        h: g.mb_rows * 16,
        x: if inside { 32 + 16 * (i % 4) } else { 0 },
        y: 32 + 16 * (i / 4),
    })
}

fn fetched(picture: &Picture, side: u8, inside: bool) -> Case<'_> {
    let place = if inside { "inside" } else { "at the edge" };
    let samples = usize::from(side) * usize::from(side);
    let mv = Mv { row: 9, col: -7 };
    case(
        format!("fetch of {side} x {side}, {place}"),
        places(picture, inside),
        samples,
        move |p, out| unsafe { shims::fetch(side, *p, mv, out.as_mut_ptr()) },
        move |p, out| one_plane::fetch_to(side, *p, mv, out),
    )
}

fn filtered<'a>(picture: &'a Picture, width: u8, name: &str, at: Fractions) -> Case<'a> {
    let side = usize::from(width) + 5;
    let samples = usize::from(width) * usize::from(width);
    let halos: [&[u8]; PLACES] = std::array::from_fn(|i| &picture.y[side * i..][..side * side]);
    case(
        format!("filter of width {width}, {name}"),
        halos,
        samples,
        move |halo, out| unsafe {
            shims::sixtap(width, halo, at.mx, at.my, at.filter, out.as_mut_ptr())
        },
        move |halo, out| one_plane::sixtap_to(width, halo, at.mx, at.my, at.filter, out),
    )
}

#[derive(Clone, Copy)]
struct Fractions {
    mx: usize,
    my: usize,
    filter: u8,
}

const WAYS: [(&str, Fractions); 5] = {
    const fn way(mx: usize, my: usize, filter: u8) -> Fractions {
        Fractions { mx, my, filter }
    }
    [
        ("two dimensions", way(2, 6, 0)),
        ("across", way(2, 0, 0)),
        ("down", way(0, 6, 0)),
        ("neither", way(0, 0, 0)),
        ("bilinear", way(2, 6, 1)),
    ]
};

/// A 4x4 block by a vector with both fractions.
fn block(picture: &Picture) -> Case<'_> {
    let mv = Mv { row: 10, col: -6 };
    case(
        "filter_block_4x4".into(),
        places(picture, true),
        16,
        move |p, out| unsafe { shims::filter_block(*p, mv, 0, out.as_mut_ptr()) },
        move |p, out| one_plane::filter_block_to(*p, mv, 0, out),
    )
}

fn block_into(picture: &Picture) -> Case<'_> {
    let mv = Mv { row: 10, col: -6 };
    let (stride, to) = (16, (4, 8));
    case(
        "filter_block_4x4_into".into(),
        places(picture, true),
        256,
        move |p, out| shims::filter_block_into(out, stride, to, *p, mv, 0),
        move |p, out| one_plane::filter_block_into(out, stride, to, *p, mv, 0),
    )
}

pub fn cases(picture: &Picture) -> Vec<Case<'_>> {
    let mut cases = vec![];
    for inside in [true, false] {
        for side in [4, 8, 16, 9, 13, 21] {
            cases.push(fetched(picture, side, inside));
        }
    }
    for width in [4, 8, 16] {
        for (name, at) in WAYS {
            cases.push(filtered(picture, width, name, at));
        }
    }
    cases.push(block(picture));
    cases.push(block_into(picture));
    cases
}
