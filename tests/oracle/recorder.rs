// Writes the files that crates/rust_answers and crates/finished_answers replay: calls
// of the original, with their arguments and answers, drawn from fixed seeds. That of
// finished macroblocks is described in finished_tape.rs.
//
// The other is a row of records. Each begins with a byte for its kind, and a kind
// has one length, but for a plane, whose bytes follow its sizes. A number of two
// bytes or more has its low byte first; a vector is its row, then its column, two
// bytes each. "Answer" stands for what the original gave.
//
//    1  plane: 0, 1 or 2 for Y, U or V; width, height, stride and count of bytes,
//       two bytes each; the bytes. It stands until the next one of its number.
//    2  stored_luma_mv: vector, answer
//    3  chroma_mv: vector, answer
//    4  apply_full_pixel: vector, answer
//    5  whole_pixel_fraction_is_zero: vector, answer (1 byte)
//    6  chroma_idx_for_luma_subblock: number (8 bytes), answer (1)
//    7  split_chroma_mvs: 16 vectors, answer (4 vectors)
//    8  filter_set_for_version: version, answer (1)
//    9  the tables: filter, row, place, tap (4 bytes)
//   10  clamp255: number (4), answer (1)
//   11  interp: filter, row, 6 samples, answer (1)
//   12  sixtap_2d: filter, column fraction, row fraction, halo, answer (16)
//   13  sixtap_mb_chroma: the same, answer (64)
//   14  sixtap_mb_luma: the same, answer (256)
//   15  fetch_block_whole_pixel: column, row (2 bytes each), vector, answer (16)
//   16  fetch_block_halo: the same, answer (81)
//   17  fetch_chroma_mb_whole_pixel: the same, answer (64)
//   18  fetch_chroma_mb_halo: the same, answer (169)
//   19  fetch_luma_mb_whole_pixel: the same, answer (256)
//   20  fetch_luma_mb_halo: the same, answer (441)
//   21  filter_block_4x4: column, row, vector, filter, answer (16)
//   22  filter_block_4x4_into: column, row, vector, filter; the destination's
//       stride, column, row (1 byte each), its 96 bytes before, and after
//   23  predict_inter_mb_whole_pixel: macroblock column, row, flag, vector; 0, or
//       8 where the original refuses; answer (384, zeros where it refuses)
//   24  predict_inter_mb: macroblock column, row, flag, filter, a version that asks
//       for these two if there is one, vector, answer (384)
//   25  predict_split_mv: the same with 16 vectors
//    0  end: count of records before it (4), check sum of all bytes before (4)
//
// 15 to 22 are on plane 0, and 23 to 25 on all three. The check sum starts at 0
// and becomes (sum * 31 + byte) mod 4294967291, a prime, so that no change of one
// byte leaves it as it was.

mod finished_tape;

use original::inverse_transform::clamp255;
use original::motion_comp::{
    chroma_idx_for_luma_subblock, filter_set_for_version, whole_pixel_fraction_is_zero, FilterSet,
};
use sides::one_plane::{self, Place};
use sides::pictures::{Geometry, Picture, Shows};
use sides::random::Random;
use sides::{
    at_one_stride, in_order, original, taps, vector_bytes, Call, Form, Mv, Vectors, SAMPLES,
};

struct Tape {
    bytes: Vec<u8>,
    records: u32,
}

impl Tape {
    fn add(&mut self, kind: u8, parts: &[&[u8]]) {
        self.bytes.push(kind);
        for part in parts {
            self.bytes.extend_from_slice(part);
        }
        self.records += 1;
    }

    fn plane(&mut self, which: u8, w: usize, h: usize, stride: usize, bytes: &[u8]) {
        let head = [which];
        let numbers = [w, h, stride, bytes.len()].map(word);
        self.add(1, &[&head, numbers.as_flattened(), bytes]);
    }

    fn end(mut self) -> Vec<u8> {
        self.bytes.push(0);
        self.bytes.extend_from_slice(&self.records.to_le_bytes());
        let sum = check_sum(&self.bytes);
        self.bytes.extend_from_slice(&sum.to_le_bytes());
        self.bytes
    }
}

fn check_sum(bytes: &[u8]) -> u32 {
    let step = |sum: u64, byte: &u8| (sum * 31 + u64::from(*byte)) % 4_294_967_291;
    bytes.iter().fold(0, step) as u32
}

fn word(n: usize) -> [u8; 2] {
    u16::try_from(n)
        .expect("a number of the file has two bytes")
        .to_le_bytes()
}

// ---- Vectors ----

/// Components at which doubling, rounding, lowering and merging turn.
#[rustfmt::skip]
const SHARP: [i16; 30] = [
    0, 1, -1, 2, -2, 3, -3, 4, -4, 5, -5, 7, -7, 8, -8, 9, -9, 16, -16, 2046, -2046,
    8192, -8192, 16383, 16384, -16384, -16385, 32766, 32767, -32768,
];

/// Every sharp component on each axis, and any.
fn some_vectors(random: &mut Random) -> Vec<Mv> {
    let mut list = Vec::new();
    for value in SHARP {
        let other = random.pick(&SHARP);
        list.push(Mv { row: value, col: 0 });
        list.push(Mv { row: 0, col: value });
        list.push(Mv {
            row: value,
            col: other,
        });
        list.push(Mv {
            row: other,
            col: value,
        });
    }
    list.extend((0..130).map(|_| any_vector(0, random)));
    list
}

/// A vector of which each component lost so many bits.
fn any_vector(bits: u32, random: &mut Random) -> Mv {
    Mv {
        row: (random.next() as i16) >> bits,
        col: (random.next() as i16) >> bits,
    }
}

fn sharp_vector(random: &mut Random) -> Mv {
    Mv {
        row: random.pick(&SHARP),
        col: random.pick(&SHARP),
    }
}

fn vectors(tape: &mut Tape, random: &mut Random) {
    for mv in some_vectors(random) {
        let given = vector_bytes(mv);
        tape.add(2, &[&given, &one_plane::stored(mv)]);
        tape.add(3, &[&given, &one_plane::chroma(mv)]);
        tape.add(4, &[&given, &one_plane::full_pixel(mv)]);
        tape.add(5, &[&given, &[u8::from(whole_pixel_fraction_is_zero(mv))]]);
    }
}

fn quarters(tape: &mut Tape, random: &mut Random) {
    let high = [u64::MAX, u64::MAX - 15, 1 << 63, 1 << 32].into_iter();
    let any = (0..60).map(|_| random.next());
    for b in (0..40).chain(high).chain(any) {
        let answer = chroma_idx_for_luma_subblock(b as usize) as u8;
        tape.add(6, &[&b.to_le_bytes(), &[answer]]);
    }
}

fn split_chroma(tape: &mut Tape, random: &mut Random) {
    for turn in 0..120 {
        let list = std::array::from_fn(|_| match turn % 3 {
            0 => any_vector(0, random),
            1 => any_vector(11, random),
            _ => sharp_vector(random),
        });
        let v = Vectors::new(list);
        tape.add(7, &[&v.bytes[..64], &one_plane::split_chroma(&v.list)]);
    }
}

// ---- Filters ----

fn tables(tape: &mut Tape) {
    for version in 0..=255 {
        let code = u8::from(filter_set_for_version(version) == FilterSet::Bilinear);
        tape.add(8, &[&[version, code]]);
    }
    for filter in 0..2 {
        for (k, row) in taps(filter).iter().enumerate() {
            for (place, tap) in row.iter().enumerate() {
                let head = [filter, k as u8, place as u8];
                tape.add(9, &[&head, &tap.to_le_bytes()]);
            }
        }
    }
}

fn clamps(tape: &mut Tape, random: &mut Random) {
    let near = (-4..4).chain(252..260);
    let far = [i32::MIN, i32::MIN + 1, -65536, -256, 65535, 65536, i32::MAX].into_iter();
    let any = (0..150).map(|turn| (random.next() as i32) >> (turn % 3 * 11));
    for v in near.chain(far).chain(any) {
        tape.add(10, &[&v.to_le_bytes(), &[clamp255(v)]]);
    }
}

/// Noise, or noise of 0 and 255 alone, which makes the filters clip.
fn samples(count: usize, random: &mut Random) -> Vec<u8> {
    let mut bytes = vec![0; count];
    random.fill(&mut bytes);
    if random.below(2) == 0 {
        bytes.iter_mut().for_each(|byte| *byte = 255 * (*byte >> 7));
    }
    bytes
}

fn steps(tape: &mut Tape, random: &mut Random) {
    for turn in 0..480 {
        let (filter, k) = ((turn % 2) as u8, turn / 2 % 8);
        let bytes = samples(6, random);
        let support = bytes[..].try_into().expect("six samples");
        let answer = one_plane::interp(filter, k, support);
        tape.add(11, &[&[filter, k as u8], support, &[answer]]);
    }
}

/// Both tables at every `apart`th pair of fractions, the first and the last
/// among them.
fn filters(tape: &mut Tape, kind: u8, width: u8, apart: usize, random: &mut Random) {
    let side = usize::from(width) + 5;
    for filter in 0..2 {
        for pair in (0..64).step_by(apart) {
            let (mx, my) = (pair % 8, pair / 8);
            let halo = samples(side * side, random);
            let answer = one_plane::sixtap(width, &halo, mx, my, filter);
            tape.add(kind, &[&[filter, mx as u8, my as u8], &halo, &answer]);
        }
    }
}

// ---- One plane ----

/// Width, height, bytes between the rows, and bytes beyond the last sample.
const PLANES: [(usize, usize, usize, usize); 12] = [
    (1, 1, 0, 0),
    (3, 2, 2, 5),
    (4, 4, 0, 0),
    (9, 9, 0, 0),
    (8, 13, 5, 0),
    (13, 13, 0, 3),
    (16, 16, 0, 0),
    (20, 21, 0, 0),
    (21, 20, 3, 0),
    (21, 21, 0, 0),
    (34, 26, 6, 9),
    (40, 24, 0, 0),
];

const SIDES: [(u8, u8); 6] = [(15, 4), (16, 9), (17, 8), (18, 13), (19, 16), (20, 21)];

/// Column 2, row 2, where a halo starts at the plane's edge, first; then any.
fn place_in<'a>(plane: &'a [u8], shape: usize, turn: usize, random: &mut Random) -> Place<'a> {
    let (w, h, between, _) = PLANES[shape];
    let (x, y) = match turn {
        0 => (2.min(w - 1), 2.min(h - 1)),
        1 => (w - 1, h - 1),
        _ => (random.below(w), random.below(h)),
    };
    Place {
        plane,
        stride: w + between,
        w,
        h,
        x,
        y,
    }
}

/// Zero, a few pixels, or far.
fn vector_for(turn: usize, random: &mut Random) -> Mv {
    match turn {
        0 => Mv { row: 0, col: 0 },
        1 | 2 => sharp_vector(random),
        _ => any_vector(random.pick(&[0, 8, 10]), random),
    }
}

fn planes(tape: &mut Tape, random: &mut Random) {
    for (shape, (w, h, between, more)) in PLANES.into_iter().enumerate() {
        let stride = w + between;
        let plane = samples((h - 1) * stride + w + more, random);
        tape.plane(0, w, h, stride, &plane);
        for turn in 0..6 {
            for (kind, side) in SIDES {
                let (p, mv) = (
                    place_in(&plane, shape, turn, random),
                    vector_for(turn, random),
                );
                tape.add(kind, &[&at(p, mv), &one_plane::fetch(side, p, mv)]);
            }
        }
        for turn in 0..16 {
            let filter = (turn % 2) as u8;
            let (p, mv) = (
                place_in(&plane, shape, turn / 2, random),
                vector_for(turn / 2, random),
            );
            tape.add(
                21,
                &[
                    &at(p, mv),
                    &[filter],
                    &one_plane::filter_block(p, mv, filter),
                ],
            );
        }
        for turn in 0..4 {
            let (p, mv) = (
                place_in(&plane, shape, turn + 1, random),
                vector_for(turn + 2, random),
            );
            into(tape, p, mv, (turn % 2) as u8, random);
        }
    }
}

fn at(p: Place, mv: Mv) -> Vec<u8> {
    let (x, y) = (word(p.x), word(p.y));
    [&x[..], &y[..], &vector_bytes(mv)[..]].concat()
}

/// Strides, columns and rows at which a block fits 96 bytes, the first of them
/// exactly.
const ROOM: [(usize, usize, usize); 6] = [
    (20, 12, 1),
    (4, 0, 0),
    (4, 0, 20),
    (12, 8, 4),
    (9, 3, 5),
    (29, 5, 0),
];

fn into(tape: &mut Tape, p: Place, mv: Mv, filter: u8, random: &mut Random) {
    let (stride, x, y) = random.pick(&ROOM);
    let before = samples(96, random);
    let mut after = before.clone();
    one_plane::filter_block_into(&mut after, stride, (x, y), p, mv, filter);
    let head = [filter, stride as u8, x as u8, y as u8];
    tape.add(22, &[&at(p, mv), &head, &before, &after]);
}

// ---- Macroblocks ----

/// Columns, rows, bytes between the rows of Y, and of U and V, bytes beyond the
/// last sample, and what is shown.
const PICTURES: [(usize, usize, usize, [usize; 2], usize, Shows); 15] = [
    (1, 1, 0, [0, 0], 0, Shows::Noise),
    (1, 1, 4, [3, 3], 7, Shows::Checkerboard),
    (2, 1, 0, [0, 0], 0, Shows::Noise),
    (1, 2, 9, [1, 1], 0, Shows::Noise),
    (2, 2, 0, [0, 0], 0, Shows::Noise),
    (2, 2, 5, [12, 12], 3, Shows::Noise),
    (2, 2, 0, [0, 0], 0, Shows::OneHot),
    (2, 2, 0, [0, 0], 1, Shows::OneValue),
    (3, 1, 0, [2, 2], 0, Shows::Checkerboard),
    (1, 3, 1, [0, 0], 0, Shows::Noise),
    (4, 1, 0, [0, 0], 0, Shows::Noise),
    (3, 2, 3, [3, 3], 0, Shows::Noise),
    (1, 1, 0, [0, 3], 0, Shows::Noise),
    (2, 2, 5, [9, 2], 4, Shows::Noise),
    (3, 2, 0, [1, 40], 0, Shows::Checkerboard),
];

/// A version that asks for this filter and flag; 0 where none does.
fn version_of(filter: u8, flag: u8, random: &mut Random) -> u8 {
    match (filter, flag) {
        (0, _) => 0,
        (_, 0) => random.pick(&[1, 2]),
        _ => 3,
    }
}

/// Sixteen vectors: mixed, equal in each quarter, all equal, all equal but one,
/// and equal at the ends of what may be merged.
fn split_vectors(turn: usize, random: &mut Random) -> Vectors {
    let near = |random: &mut Random| any_vector(random.pick(&[8, 10]), random);
    let one = near(random);
    let quarter: [Mv; 4] = std::array::from_fn(|_| near(random));
    let odd = random.below(16);
    Vectors::new(std::array::from_fn(|b| match turn % 6 {
        0 => near(random),
        1 => quarter[chroma_idx_for_luma_subblock(b)],
        2 => one,
        3 if b == odd => near(random),
        3 => one,
        4 => any_vector(random.pick(&[0, 4, 8]), random),
        _ => END_VECTORS[turn / 6 % END_VECTORS.len()],
    }))
}

#[rustfmt::skip]
const END_VECTORS: [Mv; 10] = [
    Mv { row: 16383, col: 0 }, Mv { row: 16384, col: 0 }, Mv { row: -16384, col: 3 }, Mv { row: -16385, col: 3 },
    Mv { row: 0, col: 16383 }, Mv { row: 0, col: 16384 }, Mv { row: 5, col: -16384 }, Mv { row: 5, col: -16385 },
    Mv { row: 32767, col: -32768 }, Mv { row: -32768, col: 32767 },
];

fn predictions(tape: &mut Tape, random: &mut Random) {
    let mut split_turn = 0;
    for (cols, rows, y_between, [u_between, v_between], more, shows) in PICTURES {
        let geometry = Geometry::tight(cols, rows)
            .with_each_stride_above_width(y_between, u_between, v_between)
            .with_more_bytes(more);
        let picture = Picture::new(shows, geometry, (0, 0), random);
        let g = picture.geometry;
        tape.plane(0, cols * 16, rows * 16, g.y_stride, &picture.y);
        tape.plane(1, cols * 8, rows * 8, g.u_stride, &picture.u);
        tape.plane(2, cols * 8, rows * 8, g.v_stride, &picture.v);
        let call = |vectors: Vectors, turn: usize, random: &mut Random| {
            let at = (turn % cols, random.below(rows));
            Call::on(
                &picture,
                at,
                vectors,
                (turn % 2) as u8,
                (turn / 2 % 2) as u8,
            )
        };
        for turn in 0..20 {
            let mv = match turn / 4 {
                0 => sharp_vector(random),
                1 => random.pick(&END_VECTORS),
                _ => any_vector(random.pick(&[0, 8, 9, 10]), random),
            };
            let c = call(Vectors::equal(mv.row, mv.col), turn, random);
            predicted(tape, 24, Form::Whole, &c, 4, random);
        }
        for turn in 0..14 {
            let c = call(split_vectors(split_turn, random), turn, random);
            predicted(tape, 25, Form::Split, &c, 64, random);
            split_turn += 1;
        }
        for turn in 0..6 {
            let mv = any_vector(random.pick(&[0, 7, 9]), random);
            let bits = turn % 2 * 3;
            let vectors = Vectors::equal(mv.row >> bits << bits, mv.col >> bits << bits);
            whole_pixel(tape, &call(vectors, turn / 2, random));
        }
    }
}

fn predicted(tape: &mut Tape, kind: u8, form: Form, c: &Call, bytes: usize, random: &mut Random) {
    let version = version_of(c.filter, c.full_pixel, random);
    let head = [
        c.mb_col as u8,
        c.mb_row as u8,
        c.full_pixel,
        c.filter,
        version,
    ];
    let answer = at_one_stride(c, |even| in_order(&original(form, even)));
    tape.add(kind, &[&head, &c.vectors.bytes[..bytes], &answer]);
}

fn whole_pixel(tape: &mut Tape, c: &Call) {
    let (number, answer) = match at_one_stride(c, one_plane::whole_pixel) {
        Some(samples) => (0, samples),
        None => (8, vec![0; SAMPLES]),
    };
    let head = [c.mb_col as u8, c.mb_row as u8, c.full_pixel];
    tape.add(23, &[&head, &c.vectors.bytes[..4], &[number], &answer]);
}

fn main() {
    let mut files = std::env::args().skip(1);
    let mut file = || files.next().expect("the two files to write");
    let (out, finished_out) = (file(), file());
    let mut tape = Tape {
        bytes: Vec::new(),
        records: 0,
    };
    let random = &mut Random::new(6386);
    vectors(&mut tape, random);
    quarters(&mut tape, random);
    split_chroma(&mut tape, random);
    tables(&mut tape);
    clamps(&mut tape, random);
    steps(&mut tape, random);
    filters(&mut tape, 12, 4, 1, random);
    filters(&mut tape, 13, 8, 3, random);
    filters(&mut tape, 14, 16, 3, random);
    planes(&mut tape, random);
    predictions(&mut tape, random);
    let records = tape.records;
    let bytes = tape.end();
    std::fs::write(&out, &bytes).expect("the file is written");
    println!("{records} records, {} bytes", bytes.len());
    finished_tape::write(&finished_out, random);
}
