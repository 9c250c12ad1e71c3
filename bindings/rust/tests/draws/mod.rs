//! Pictures, positions, vectors and coefficients drawn at random, for the tests, each of which takes a part.
#![allow(dead_code)]

/// A xorshift generator.
pub struct Draw(u64);

impl Draw {
    pub fn new() -> Draw {
        Draw(0x9E37_79B9_7F4A_7C15)
    }

    pub fn number(&mut self) -> u32 {
        self.0 ^= self.0 << 13;
        self.0 ^= self.0 >> 7;
        self.0 ^= self.0 << 17;
        (self.0 >> 32) as u32
    }

    pub fn below(&mut self, n: usize) -> usize {
        self.number() as usize % n
    }

    pub fn coin(&mut self) -> bool {
        self.number() & 1 == 1
    }

    /// Short, or any.
    fn component(&mut self) -> i16 {
        match self.below(3) {
            0 => self.number() as i16,
            1 => (self.below(33) * 4) as i16 - 64,
            _ => self.below(257) as i16 - 128,
        }
    }

    /// From -limit to limit.
    fn within(&mut self, limit: i16) -> i16 {
        self.below(2 * limit as usize + 1) as i16 - limit
    }

    /// All values, small, sparse, the first of its block alone, or the extremes.
    fn coefficient(&mut self, kind: usize, place: usize, limit: i16) -> i16 {
        match kind {
            0 => self.within(limit),
            1 => self.within(60),
            2 if self.below(8) == 0 => self.within(limit),
            3 if place == 0 => self.within(limit),
            4 => [-limit, 0, limit][self.below(3)],
            _ => 0,
        }
    }

    /// Row and column.
    pub fn vector(&mut self) -> (i16, i16) {
        (self.component(), self.component())
    }
}

/// Planes with rows longer than they need be, and a macroblock in them.
pub struct Planes {
    pub y: Vec<u8>,
    pub u: Vec<u8>,
    pub v: Vec<u8>,
    pub y_stride: usize,
    pub uv_stride: usize,
    pub mb_cols: usize,
    pub mb_rows: usize,
    pub mb_col: usize,
    pub mb_row: usize,
}

impl Planes {
    pub fn drawn(draw: &mut Draw) -> Planes {
        let (mb_cols, mb_rows) = (1 + draw.below(4), 1 + draw.below(4));
        let (y_stride, uv_stride) = (mb_cols * 16 + draw.below(9), mb_cols * 8 + draw.below(9));
        let mut plane = |len: usize| (0..len).map(|_| draw.number() as u8).collect();
        let y = plane(y_stride * mb_rows * 16);
        let u = plane(uv_stride * mb_rows * 8);
        let v = plane(uv_stride * mb_rows * 8);
        let (mb_col, mb_row) = (draw.below(mb_cols), draw.below(mb_rows));
        Planes { y, u, v, y_stride, uv_stride, mb_cols, mb_rows, mb_col, mb_row }
    }
}

/// The coefficients of a macroblock within their ranges, or any, which are skipped.
pub struct Residue {
    pub skip: bool,
    pub y2: [i16; 16],
    pub y: [[i16; 16]; 16],
    pub u: [[i16; 16]; 4],
    pub v: [[i16; 16]; 4],
}

impl Residue {
    pub fn drawn(draw: &mut Draw) -> Residue {
        let skip = draw.below(7) == 0;
        let (mixed, kind) = (draw.below(6) == 0, draw.below(5));
        let mut block = |limit| {
            let kind = if mixed { draw.below(5) } else { kind };
            std::array::from_fn(|place| if skip { draw.number() as i16 } else { draw.coefficient(kind, place, limit) })
        };
        let y2 = block(16383);
        let y = [(); 16].map(|()| block(4095));
        let u = [(); 4].map(|()| block(4095));
        let v = [(); 4].map(|()| block(4095));
        Residue { skip, y2, y, u, v }
    }

    /// The blocks of Y with any first coefficients, for a macroblock where Y2 replaces them.
    pub fn y_replaced(&self, draw: &mut Draw) -> [[i16; 16]; 16] {
        let mut y = self.y;
        y.iter_mut().for_each(|block| block[0] = draw.number() as i16);
        y
    }
}

fn noise(draw: &mut Draw, len: usize) -> Vec<u8> {
    (0..len).map(|_| draw.number() as u8).collect()
}

/// Three pictures of one size, with noise between rows: Y, U and V of each.
pub struct Pictures {
    pub size: Planes,
    pub planes: [[Vec<u8>; 3]; 3],
}

impl Pictures {
    pub fn drawn(draw: &mut Draw) -> Pictures {
        let size = Planes::drawn(draw);
        let planes = [(); 3].map(|()| [size.y.len(), size.u.len(), size.v.len()].map(|len| noise(draw, len)));
        Pictures { size, planes }
    }
}

/// A plane of a frame to write, with noise between rows and after them, and what is due in it.
pub struct Lent {
    pub bytes: Vec<u8>,
    pub stride: usize,
    due: Vec<u8>,
    side: usize,
}

impl Lent {
    /// For so many samples to a macroblock's side.
    pub fn drawn(draw: &mut Draw, size: &Planes, side: usize) -> Lent {
        let stride = size.mb_cols * side + draw.below(9);
        let len = stride * size.mb_rows * side + draw.below(30);
        let bytes = noise(draw, len);
        Lent { due: bytes.clone(), bytes, stride, side }
    }

    /// The samples of a macroblock are due in its place.
    pub fn put(&mut self, mb_col: usize, mb_row: usize, samples: &[u8]) {
        for (row, samples) in samples.chunks_exact(self.side).enumerate() {
            let from = (mb_row * self.side + row) * self.stride + mb_col * self.side;
            self.due[from..from + self.side].copy_from_slice(samples);
        }
    }

    pub fn as_due(&self) -> bool {
        self.bytes == self.due
    }
}
