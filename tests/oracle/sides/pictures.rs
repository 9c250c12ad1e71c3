// Reference pictures to predict from: their sizes, how they lie in memory, and
// what they show.

use crate::random::Random;

/// Sizes and strides of a picture, with how many bytes each plane has beyond
/// the last sample.
#[derive(Clone, Copy)]
pub struct Geometry {
    pub mb_cols: usize,
    pub mb_rows: usize,
    pub y_stride: usize,
    pub u_stride: usize,
    pub v_stride: usize,
    pub more: usize,
}

impl Geometry {
    /// Strides as wide as the picture, and exactly the bytes needed.
    pub fn tight(mb_cols: usize, mb_rows: usize) -> Geometry {
        Geometry {
            mb_cols,
            mb_rows,
            y_stride: mb_cols * 16,
            u_stride: mb_cols * 8,
            v_stride: mb_cols * 8,
            more: 0,
        }
    }

    pub fn with_strides_above_width(self, y: usize, uv: usize) -> Geometry {
        self.with_each_stride_above_width(y, uv, uv)
    }

    pub fn with_each_stride_above_width(self, y: usize, u: usize, v: usize) -> Geometry {
        Geometry {
            y_stride: self.y_stride + y,
            u_stride: self.u_stride + u,
            v_stride: self.v_stride + v,
            ..self
        }
    }

    pub fn with_more_bytes(self, more: usize) -> Geometry {
        Geometry { more, ..self }
    }
}

#[derive(Clone, Copy, PartialEq)]
pub enum Shows {
    Noise,
    OneValue,
    /// Squares of 0 and 255, with a side of one to three samples.
    Checkerboard,
    /// 0 everywhere but for one 255 in each plane.
    OneHot,
}

impl Shows {
    pub const ALL: [Shows; 4] = [
        Shows::Noise,
        Shows::OneValue,
        Shows::Checkerboard,
        Shows::OneHot,
    ];

    pub fn name(self) -> &'static str {
        match self {
            Shows::Noise => "noise",
            Shows::OneValue => "one value",
            Shows::Checkerboard => "checkerboard of 0 and 255",
            Shows::OneHot => "one sample of 255",
        }
    }
}

pub struct Picture {
    pub geometry: Geometry,
    pub y: Vec<u8>,
    pub u: Vec<u8>,
    pub v: Vec<u8>,
}

impl Picture {
    /// `focus` is the macroblock, by column and row, near which the one hot
    /// sample stands.
    pub fn new(
        shows: Shows,
        geometry: Geometry,
        focus: (usize, usize),
        random: &mut Random,
    ) -> Picture {
        let g = geometry;
        let mut plane = |side: usize, stride: usize| {
            let (w, h) = (g.mb_cols * side, g.mb_rows * side);
            let near = (focus.0 * side, focus.1 * side);
            painted(shows, (w, h), stride, g.more, near, random)
        };
        let y = plane(16, g.y_stride);
        let u = plane(8, g.u_stride);
        let v = plane(8, g.v_stride);
        Picture { geometry, y, u, v }
    }
}

/// A plane whose bytes beside the samples are noise: they must alter nothing.
fn painted(
    shows: Shows,
    size: (usize, usize),
    stride: usize,
    more: usize,
    near: (usize, usize),
    random: &mut Random,
) -> Vec<u8> {
    let (w, h) = size;
    let mut plane = vec![0u8; (h - 1) * stride + w + more];
    random.fill(&mut plane);
    if shows == Shows::Noise {
        return plane;
    }
    let sample = sample_rule(shows, size, near, random);
    for row in 0..h {
        for col in 0..w {
            plane[row * stride + col] = sample(col, row);
        }
    }
    plane
}

fn sample_rule(
    shows: Shows,
    size: (usize, usize),
    near: (usize, usize),
    random: &mut Random,
) -> impl Fn(usize, usize) -> u8 {
    let value = random.below(256) as u8;
    let side = 1 + random.below(3);
    let phase = random.below(2);
    let hot = (
        beside(near.0, size.0, random),
        beside(near.1, size.1, random),
    );
    move |col, row| match shows {
        Shows::Noise | Shows::OneValue => value,
        Shows::Checkerboard => 255 * ((col / side + row / side + phase) % 2) as u8,
        Shows::OneHot => 255 * u8::from((col, row) == hot),
    }
}

/// A coordinate inside the plane, from 8 before `at` to 23 after it.
fn beside(at: usize, size: usize, random: &mut Random) -> usize {
    (at as i64 + random.within(-8, 23)).clamp(0, size as i64 - 1) as usize
}
