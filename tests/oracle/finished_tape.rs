// Writes the file that crates/finished_answers replays: macroblocks that the original
// finished, from coefficients and from levels that it dequantised.
//
// A picture of 3 by 2 macroblocks stands first, without gaps: 1536 bytes of Y, 384 of
// U and of V. Records follow, 1261 bytes each:
//
//   1    kind: 0 whole pixels, 1 whole, 2 split; with levels 3, 4 and 5
//   5    macroblock column, row, full-pixel flag, skip, filter
//   6    base index and five deltas, each with 128 added
//   64   vectors, row before column, two bytes each; a call with one takes the first
//   800  coefficients or levels, two bytes each, Y2 first, which split leaves out
//   1    0, or 8 where the original refuses
//   384  its samples, zeros where it refuses
//
// The last four bytes are the check sum of all before them, as in the other file. Low
// bytes stand first.

use super::{any_vector, check_sum, split_vectors};
use sides::finished::{self, whole_pixels, Coefficients, Finish, Quantiser, Residue, BLOCKS, Y2};
use sides::pictures::{Geometry, Picture, Shows};
use sides::random::Random;
use sides::{in_order, Call, Vectors, SAMPLES};

/// Coefficients of the domain: any, small, few, the first of each block alone,
/// and the greatest and least.
fn coefficients(turn: usize, random: &mut Random) -> Coefficients {
    std::array::from_fn(|i| {
        let limit = if i < Y2 { 16383 } else { 4095 };
        let any = random.within(-limit, limit);
        let drawn = match turn % 5 {
            0 => any,
            1 => any >> 6,
            2 if random.below(6) > 0 => 0,
            2 => any,
            3 if i % 16 > 0 => 0,
            3 => any >> random.below(8),
            _ => limit * (random.below(3) as i64 - 1),
        };
        drawn as i16
    })
}

/// Indices as streams have them, and some that are clamped.
fn quantiser(turn: usize, random: &mut Random) -> Quantiser {
    Quantiser {
        base: random.within(0, 127) as i32,
        deltas: std::array::from_fn(|_| match turn % 3 {
            0 => 0,
            1 => random.within(-15, 15) as i32,
            _ => random.within(-128, 127) as i32,
        }),
    }
}

fn bytes_of(kind: u8, form: Finish, call: &Call, residue: &Residue) -> Vec<u8> {
    let answer = finished::original(form, call, residue);
    let q = residue.quantiser.unwrap_or(Quantiser {
        base: 0,
        deltas: [0; 5],
    });
    let mut record = vec![
        kind,
        call.mb_col as u8,
        call.mb_row as u8,
        call.full_pixel,
        residue.skip,
        call.filter,
    ];
    let indices = [q.base].into_iter().chain(q.deltas);
    record.extend(indices.map(|n| (n + 128) as u8));
    record.extend_from_slice(&call.vectors.bytes[..64]);
    let numbers = residue.coefficients[..Y2 + BLOCKS].iter();
    record.extend(numbers.flat_map(|n| n.to_le_bytes()));
    record.push(if answer.is_some() { 0 } else { 8 });
    record.extend_from_slice(&answer.map_or([0; SAMPLES], |mb| in_order(&mb)));
    record
}

const TURNS: usize = 18;

pub fn write(out: &str, random: &mut Random) {
    let picture = Picture::new(Shows::Noise, Geometry::tight(3, 2), (0, 0), random);
    let mut bytes = [&picture.y[..], &picture.u, &picture.v].concat();
    for turn in 0..2 * TURNS {
        let coefficients = coefficients(turn, random);
        let from_levels = turn >= TURNS;
        let quantiser = from_levels.then(|| quantiser(turn, random));
        let given = quantiser.map_or(coefficients, |q| {
            std::array::from_fn(|i| coefficients[i] / q.factor(i))
        });
        let residue = Residue {
            coefficients: &given,
            count: 0,
            skip: u8::from(turn % 6 == 5) * random.within(1, 255) as u8,
            quantiser,
        };
        let near = any_vector(9, random);
        let flat = if turn % 7 == 6 {
            near
        } else {
            whole_pixels(near)
        };
        let at = (turn % 3, turn / 3 % 2);
        let (filter, flag) = ((turn % 2) as u8, (turn / 2 % 2) as u8);
        let first = 3 * u8::from(from_levels);
        let mut add = |kind, form, vectors| {
            let call = Call::on(&picture, at, vectors, filter, flag);
            bytes.extend(bytes_of(first + kind, form, &call, &residue));
        };
        add(0, Finish::WholePixel, Vectors::equal(flat.row, flat.col));
        add(1, Finish::Whole, Vectors::equal(near.row, near.col));
        add(2, Finish::Split, split_vectors(turn, random));
    }
    let sum = check_sum(&bytes);
    bytes.extend_from_slice(&sum.to_le_bytes());
    std::fs::write(out, &bytes).expect("the file is written");
    println!("{} finished, {} bytes", 6 * TURNS, bytes.len());
}
