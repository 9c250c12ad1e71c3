// The functions on one plane, on halos and on vectors, through C shims of a test
// crate (`--cfg shims`).

use crate::drafts::{any_draft, every_pair, long_plane, part, resolved, Choices, Draft, Pick, TOP};
use crate::jobs::Job;
use crate::refusals::{needed, planes_due, FILTERS, GREATEST_STRIDE, LENGTHS, POSITIONS, STRIDES};
use crate::sweeps::{every_value, layouts, words};
use crate::tally::{differing, written, Outcome, Tally};
use sides::one_plane::{self, Place};
use sides::pictures::{Picture, Shows};
use sides::random::Random;
use sides::shims::{self, shim_interp, shim_split_chroma, shim_vector, shim_whole_pixel};
use sides::{at_one_stride, Call, Form, Mv, Vectors, SAMPLES};
use Pick::{Is, Limit};

// ---- Vectors ----

fn vectors(which: u8, name: &str, due: fn(Mv) -> Vec<u8>, random: &mut Random) -> Tally {
    let mut tally = Tally::new(format!("{name} vector, every component"));
    let mut visit = |mv: Mv| {
        let outcome = written(0, &due(mv), |out| unsafe {
            shim_vector(which, mv.row, mv.col, out, 4)
        });
        tally.add(outcome, || format!("{mv:?}"));
    };
    for _ in 0..20 {
        every_value(|value| {
            let other = random.next() as i16;
            visit(Mv {
                row: value,
                col: other,
            });
            visit(Mv {
                row: other,
                col: value,
            });
        });
    }
    tally
}

fn split_chroma(random: &mut Random) -> Tally {
    let mut tally = Tally::new("split chroma vectors");
    for turn in 0..700_000 {
        let bits = if turn % 2 == 0 { 0 } else { 10 };
        let any = |random: &mut Random| (random.next() as i16) >> bits;
        let v = Vectors::new(std::array::from_fn(|_| Mv {
            row: any(random),
            col: any(random),
        }));
        let due = one_plane::split_chroma(&v.list);
        let outcome = written(0, &due, |out| unsafe {
            shim_split_chroma(v.bytes.as_ptr(), 64, out, 16)
        });
        tally.add(outcome, || format!("{:?}", v.list));
    }
    tally
}

// ---- Filters ----

/// Noise, or noise of 0 and 255 alone, which makes the filters clip.
fn support<const N: usize>(random: &mut Random) -> [u8; N] {
    let mut bytes = [0; N];
    random.fill(&mut bytes);
    if random.below(2) == 0 {
        bytes = bytes.map(|byte| if byte < 128 { 0 } else { 255 });
    }
    bytes
}

/// A fraction or filter code: mostly in order, else any.
fn mostly_below(limit: usize, random: &mut Random) -> usize {
    match random.below(16) {
        0 => random.pick(&[limit, limit + 1, 64, 255, TOP, 1 << 63]),
        _ => random.below(limit),
    }
}

fn interp(random: &mut Random) -> Tally {
    let mut tally = Tally::new("interp");
    for _ in 0..12_000_000 {
        let s: [u8; 6] = support(random);
        let (k, filter) = (mostly_below(8, random), mostly_below(2, random) as u8);
        let refused = k > 7 || filter > 1;
        let due = if refused {
            0
        } else {
            one_plane::interp(filter, k, &s)
        };
        let outcome = written(5 * u32::from(refused), &[due], |out| unsafe {
            shim_interp(filter, k, s.as_ptr(), s.len(), out, 1)
        });
        tally.add(outcome, || format!("filter {filter}, row {k}, {s:?}"));
    }
    tally
}

fn sixtap<const HALO: usize>(width: u8, calls: usize, random: &mut Random) -> Tally {
    let mut tally = Tally::new(format!("filter of width {width}"));
    let samples = usize::from(width) * usize::from(width);
    for _ in 0..calls {
        let halo: [u8; HALO] = support(random);
        let (mx, my) = (mostly_below(8, random), mostly_below(8, random));
        let filter = mostly_below(2, random) as u8;
        let refused = mx > 7 || my > 7 || filter > 1;
        let due = if refused {
            vec![0; samples]
        } else {
            one_plane::sixtap(width, &halo, mx, my, filter)
        };
        let outcome = written(5 * u32::from(refused), &due, |out| unsafe {
            shims::sixtap(width, &halo, mx, my, filter, out)
        });
        tally.add(outcome, || {
            format!("fractions {mx} {my}, filter {filter}, {halo:?}")
        });
    }
    tally
}

// ---- One plane ----

#[rustfmt::skip]
const LENGTHS_OF_SIDE: &[Pick] = &[
    Is(24), Is(1), Is(4), Is(20), Is(21), Is(45), Is(16384),
    Is(0), Is(16385), Is(1 << 32), Is(1 << 63), Is(TOP),
];
#[rustfmt::skip]
const DST_STRIDES: &[Pick] = &[
    Limit(0), Limit(1), Limit(9), Is(32768),
    Limit(-1), Is(0), Is(3), Is(32769), Is(1 << 63), Is(TOP),
];
const DST_X: &[Pick] = &[
    Is(0),
    Is(1),
    Is(12),
    Is(32764),
    Is(32765),
    Is(1 << 63),
    Is(TOP - 3),
    Is(TOP),
];
const DST_Y: &[Pick] = &[
    Is(0),
    Is(1),
    Is(12),
    Is(16383),
    Is(16384),
    Is(1 << 63),
    Is(TOP - 2),
    Is(TOP),
];

const ARGUMENTS: usize = 11;
const CHOICES: Choices<ARGUMENTS> = [
    LENGTHS_OF_SIDE,
    LENGTHS_OF_SIDE,
    STRIDES,
    LENGTHS,
    POSITIONS,
    POSITIONS,
    FILTERS,
    DST_STRIDES,
    DST_X,
    DST_Y,
    LENGTHS,
];

const GREATEST_SIDE: u128 = 16384;
const GREATEST_DST_Y: u128 = 16383;

/// A call on one plane; the destination is `filter_block_4x4_into`'s alone.
struct OnPlane<'a> {
    place: Place<'a>,
    mv: Mv,
    filter: u8,
    dst_stride: usize,
    dst_x: usize,
    dst_y: usize,
    dst_len: usize,
}

fn on_plane<'a>(draft: &Draft<ARGUMENTS>, plane: &'a [u8], mv: Mv) -> OnPlane<'a> {
    let take = |argument: usize, limit: u128| resolved(CHOICES[argument][draft[argument]], limit);
    let (w, h) = (take(0, 0), take(1, 0));
    let width = (w as u128).clamp(1, GREATEST_SIDE);
    let height = (h as u128).clamp(1, GREATEST_SIDE);
    let stride = take(2, width);
    let need = needed(
        width,
        height,
        (stride as u128).clamp(width, GREATEST_STRIDE),
    );
    let (dst_x, dst_y) = (take(8, 0), take(9, 0));
    let dst_stride = take(7, dst_x as u128 + 4);
    let dst_need = dst_needed(
        (dst_stride as u128).min(GREATEST_STRIDE),
        (dst_x as u128).min(GREATEST_STRIDE),
        (dst_y as u128).min(GREATEST_DST_Y),
    );
    OnPlane {
        place: Place {
            plane: part(plane, take(3, need)),
            stride,
            w,
            h,
            x: take(4, width),
            y: take(5, height),
        },
        mv,
        filter: take(6, 0) as u8,
        dst_stride,
        dst_x,
        dst_y,
        dst_len: take(10, dst_need),
    }
}

fn dst_needed(stride: u128, x: u128, y: u128) -> u128 {
    (y + 3) * stride + x + 4
}

fn place_due(p: &Place) -> u32 {
    let (w, h, stride) = (p.w as u128, p.h as u128, p.stride as u128);
    let good_side = |n: u128| (1..=GREATEST_SIDE).contains(&n);
    if !good_side(w) || !good_side(h) {
        1
    } else if !(w..=GREATEST_STRIDE).contains(&stride) {
        2
    } else if (p.plane.len() as u128) < needed(w, h, stride) {
        3
    } else if p.x >= p.w || p.y >= p.h {
        4
    } else {
        0
    }
}

fn filtered_due(c: &OnPlane) -> u32 {
    match place_due(&c.place) {
        0 if c.filter > 1 => 5,
        number => number,
    }
}

fn into_due(c: &OnPlane) -> u32 {
    let (stride, x, y) = (c.dst_stride as u128, c.dst_x as u128, c.dst_y as u128);
    let fits = (x + 4..=GREATEST_STRIDE).contains(&stride)
        && y <= GREATEST_DST_Y
        && c.dst_len as u128 >= dst_needed(stride, x, y);
    match filtered_due(c) {
        0 if !fits => 7,
        number => number,
    }
}

fn plane_words(c: &OnPlane) -> String {
    let p = &c.place;
    format!(
        "plane of {}, stride {}, {}x{}, at {} {}, {:?}, filter {}, destination of {}, stride {}, at {} {}",
        p.plane.len(),
        p.stride,
        p.w,
        p.h,
        p.x,
        p.y,
        c.mv,
        c.filter,
        c.dst_len,
        c.dst_stride,
        c.dst_x,
        c.dst_y
    )
}

/// A vector of a few pixels, or any.
fn any_vector(random: &mut Random) -> Mv {
    let bits = random.pick(&[0, 7, 8, 10]);
    Mv {
        row: (random.next() as i16) >> bits,
        col: (random.next() as i16) >> bits,
    }
}

/// Of each argument's choices, how many first ones are in order and small: they
/// make planes of up to 45 by 45 samples.
const IN_ORDER: Draft<ARGUMENTS> = [6, 6, 2, 3, 1, 1, 2, 3, 3, 3, 3];

/// Hands on calls at every limit, and `calls` more on planes in order.
fn on_every_plane(calls: usize, random: &mut Random, mut visit: impl FnMut(&OnPlane)) {
    let plane = &long_plane(
        needed(GREATEST_SIDE, GREATEST_SIDE, GREATEST_STRIDE) + 2,
        random,
    );
    every_pair(&CHOICES, |draft| {
        visit(&on_plane(draft, plane, any_vector(random)))
    });
    for _ in 0..100_000 {
        visit(&on_plane(
            &any_draft(&CHOICES, random),
            plane,
            any_vector(random),
        ));
    }
    for _ in 0..calls {
        let draft = IN_ORDER.map(|choices| random.below(choices));
        let mut call = on_plane(&draft, plane, any_vector(random));
        call.place.x = random.below(call.place.w);
        call.place.y = random.below(call.place.h);
        visit(&call);
    }
}

fn fetch(side: u8, random: &mut Random) -> Tally {
    let mut tally = Tally::new(format!("fetch of side {side}"));
    let samples = usize::from(side) * usize::from(side);
    on_every_plane(12_000_000 / samples, random, |c| {
        let p = c.place;
        let number = place_due(&p);
        let due = if number == 0 {
            one_plane::fetch(side, p, c.mv)
        } else {
            vec![0; samples]
        };
        let outcome = written(number, &due, |out| unsafe {
            shims::fetch(side, p, c.mv, out)
        });
        tally.add(outcome, || plane_words(c));
    });
    tally
}

fn filter_block(random: &mut Random) -> Tally {
    let mut tally = Tally::new("filter_block_4x4");
    on_every_plane(700_000, random, |c| {
        let p = c.place;
        let number = filtered_due(c);
        let due = if number == 0 {
            one_plane::filter_block(p, c.mv, c.filter)
        } else {
            vec![0; 16]
        };
        let outcome = written(number, &due, |out| unsafe {
            shims::filter_block(p, c.mv, c.filter, out)
        });
        tally.add(outcome, || plane_words(c));
    });
    tally
}

/// The destination, before and after: of each only a window round the block is
/// looked at, as the longest are half a gigabyte.
fn filter_block_into(random: &mut Random) -> Tally {
    let mut tally = Tally::new("filter_block_4x4_into");
    let most = dst_needed(GREATEST_STRIDE, GREATEST_STRIDE, GREATEST_DST_Y) + 2;
    let (mut got, mut due) = (long_plane(most, random), Vec::new());
    on_every_plane(700_000, random, |c| {
        let number = into_due(c);
        let length = c.dst_len.min(got.len());
        let window = if number == 0 {
            window(c, length)
        } else {
            0..length.min(1 << 12)
        };
        due.clear();
        due.extend_from_slice(&got[window.clone()]);
        if number == 0 {
            let row = window.start / c.dst_stride;
            let to = (c.dst_x, c.dst_y - row);
            one_plane::filter_block_into(&mut due, c.dst_stride, to, c.place, c.mv, c.filter);
        }
        let (dst, to) = (&mut got[..length], (c.dst_x, c.dst_y));
        let given = shims::filter_block_into(dst, c.dst_stride, to, c.place, c.mv, c.filter);
        let wrong_samples = differing(&got[window], &due);
        let outcome = Outcome {
            number: given,
            due: number,
            samples: 16,
            wrong_samples,
            stray: false,
        };
        tally.add(outcome, || plane_words(c));
    });
    tally
}

/// From the row before the block to the row after it, where there are such.
fn window(c: &OnPlane, length: usize) -> std::ops::Range<usize> {
    let first = c.dst_y.saturating_sub(1);
    first * c.dst_stride..length.min((c.dst_y + 5) * c.dst_stride)
}

// ---- Whole pixels ----

fn whole_pixel(random: &mut Random) -> Tally {
    let mut tally = Tally::new("predict_inter_mb_whole_pixel");
    for turn in 0..40_000 {
        let geometry = random
            .pick(&layouts(1 + turn % 4, 1 + turn / 4 % 4))
            .with_each_stride_above_width(0, random.below(3), random.below(3));
        let at = (
            random.below(geometry.mb_cols + 1),
            random.below(geometry.mb_rows + 1),
        );
        let picture = Picture::new(Shows::Noise, geometry, (0, 0), random);
        // One in two vectors leaves no fraction.
        let bits = random.pick(&[0, 3]);
        let mv = any_vector(random);
        let vectors = Vectors::equal(mv.row >> bits << bits, mv.col >> bits << bits);
        let call = Call::on(&picture, at, vectors, 0, random.below(2) as u8);
        check_whole_pixel(&call, &mut tally);
    }
    tally
}

fn check_whole_pixel(c: &Call, tally: &mut Tally) {
    let (number, due) = match planes_due(c) {
        0 => at_one_stride(c, one_plane::whole_pixel)
            .map_or((8, vec![0; SAMPLES]), |samples| (0, samples)),
        refused => (refused, vec![0; SAMPLES]),
    };
    let mv = c.vectors.list[0];
    #[rustfmt::skip]
    let outcome = written(number, &due, |out| unsafe {
        shim_whole_pixel(
            c.y.as_ptr(), c.y.len(), c.u.as_ptr(), c.u.len(), c.v.as_ptr(), c.v.len(),
            c.y_stride, c.u_stride, c.v_stride, c.mb_cols, c.mb_rows, c.mb_col, c.mb_row,
            mv.row, mv.col, c.full_pixel, out, SAMPLES,
        )
    });
    tally.add(outcome, || words(Form::Whole, c));
}

fn job(compare: impl FnOnce(&mut Random) -> Tally + Send + 'static) -> Job {
    Box::new(|random| vec![compare(random)])
}

pub fn jobs() -> Vec<Job> {
    let mut jobs = vec![
        job(|random| vectors(0, "stored", one_plane::stored, random)),
        job(|random| vectors(1, "chroma", one_plane::chroma, random)),
        job(|random| vectors(2, "full-pixel", one_plane::full_pixel, random)),
        job(split_chroma),
        job(interp),
        job(|random| sixtap::<81>(4, 700_000, random)),
        job(|random| sixtap::<169>(8, 180_000, random)),
        job(|random| sixtap::<441>(16, 50_000, random)),
    ];
    jobs.extend([4, 8, 9, 13, 16, 21].map(|side| job(move |random| fetch(side, random))));
    jobs.extend([job(filter_block), job(filter_block_into), job(whole_pixel)]);
    jobs
}
