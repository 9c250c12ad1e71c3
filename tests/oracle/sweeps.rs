// Calls that are in order: samples compared with the original's, over vectors,
// positions, pictures and splits.

use crate::jobs::Job;
use crate::tally::{untouched, written, Tally};
use sides::pictures::{Geometry, Picture, Shows};
use sides::random::Random;
use sides::{at_one_stride, in_order, original, product, Call, Form, Mv, Vectors};

/// Both tables, each with the flag off and on.
const MODES: [(u8, u8); 4] = [(0, 0), (0, 1), (1, 0), (1, 1)];

/// Values of the other component while one takes every value.
const SPREAD: [i16; 17] = [
    0, 1, -1, 3, -5, 8, 64, -64, 127, -200, 1000, -16384, 16383, 16384, -16385, 32767, -32768,
];

/// Places about which whole and split prediction part ways.
const ABOUT_RANGE: [i16; 12] = [
    -16387, -16386, -16385, -16384, -16383, -16382, 16381, 16382, 16383, 16384, 16385, 16386,
];

/// The tallies of one kind of input, one for each form of prediction.
struct Kind {
    tallies: Vec<(Form, Tally)>,
}

impl Kind {
    fn new(title: &str, forms: &[Form]) -> Kind {
        let tally = |form: &Form| (*form, Tally::new(format!("{title}: {}", form.name())));
        Kind {
            tallies: forms.iter().map(tally).collect(),
        }
    }

    /// For sixteen equal vectors, which whole prediction takes too.
    fn of_all(title: &str) -> Kind {
        Kind::new(title, &Form::ALL)
    }

    fn of_splits(title: &str) -> Kind {
        Kind::new(title, &[Form::Split, Form::Merging, Form::Quarters])
    }

    fn compare(&mut self, call: &Call) {
        for (form, tally) in &mut self.tallies {
            compare(*form, call, tally);
        }
    }

    /// A call that is due to be refused.
    fn refuse(&mut self, due: u32, call: &Call) {
        for (form, tally) in &mut self.tallies {
            let outcome = untouched(due, |out| unsafe { product(*form, call, out) });
            tally.add(outcome, || words(*form, call));
        }
    }

    fn into_tallies(self) -> Vec<Tally> {
        self.tallies.into_iter().map(|(_, tally)| tally).collect()
    }
}

pub fn compare(form: Form, call: &Call, tally: &mut Tally) {
    let expected = at_one_stride(call, |even| in_order(&original(form, even)));
    let outcome = written(0, &expected, |out| unsafe { product(form, call, out) });
    tally.add(outcome, || words(form, call));
}

/// A call in words, to find it again.
pub fn words(form: Form, c: &Call) -> String {
    format!(
        "{}, {}x{} macroblocks, strides {} {} {}, planes of {} {} {}, at column {} row {}, \
         filter {}, flag {}, {} bytes of vectors, output of {}, vectors (row, column) {}",
        form.name(),
        c.mb_cols,
        c.mb_rows,
        c.y_stride,
        c.u_stride,
        c.v_stride,
        c.y.len(),
        c.u.len(),
        c.v.len(),
        c.mb_col,
        c.mb_row,
        c.filter,
        c.full_pixel,
        c.vectors_len,
        c.out_len,
        vector_words(&c.vectors.list)
    )
}

fn vector_words(list: &[Mv; 16]) -> String {
    let one = |mv: &Mv| format!("({}, {})", mv.row, mv.col);
    if list.iter().all(|mv| *mv == list[0]) {
        return format!("sixteen times {}", one(&list[0]));
    }
    list.iter().map(one).collect::<Vec<_>>().join(" ")
}

#[derive(Clone, Copy)]
enum Axis {
    Row,
    Column,
}

impl Axis {
    const BOTH: [Axis; 2] = [Axis::Row, Axis::Column];

    fn name(self) -> &'static str {
        match self {
            Axis::Row => "row",
            Axis::Column => "column",
        }
    }

    /// A picture of the greatest length along the axis: it shows where each
    /// vector lands, where a small one clamps most of the fetches.
    fn longest(self) -> Geometry {
        match self {
            Axis::Row => Geometry::tight(2, 1024),
            Axis::Column => Geometry::tight(1024, 2),
        }
    }

    fn vectors(self, along: i16, across: i16) -> Vectors {
        match self {
            Axis::Row => Vectors::equal(along, across),
            Axis::Column => Vectors::equal(across, along),
        }
    }
}

fn anywhere(picture: Geometry, random: &mut Random) -> (usize, usize) {
    (random.below(picture.mb_cols), random.below(picture.mb_rows))
}

pub fn every_value(visit: impl FnMut(i16)) {
    (i16::MIN..=i16::MAX).for_each(visit);
}

/// Every value of one component, in as many of the four modes as said, each with
/// another value of the other component. Where it is one mode, it changes with
/// every fourth value, so that each fraction meets each mode.
fn every_component(
    axis: Axis,
    (size, geometry): (&str, Geometry),
    modes: usize,
    random: &mut Random,
) -> Kind {
    let title = format!("every {} component, {size} picture", axis.name());
    let mut kind = Kind::of_all(&title);
    let picture = Picture::new(Shows::Noise, geometry, (0, 0), random);
    every_value(|value| {
        let count = usize::from(value as u16);
        for turn in 0..modes {
            let (filter, flag) = MODES[(count / 4 + turn) % MODES.len()];
            let across = SPREAD[(modes * count + turn) % SPREAD.len()];
            let vectors = axis.vectors(value, across);
            let at = anywhere(geometry, random);
            kind.compare(&Call::on(&picture, at, vectors, filter, flag));
        }
    });
    kind
}

/// Strides equal to and above the width, planes with exactly the bytes needed
/// and with more.
pub fn layouts(mb_cols: usize, mb_rows: usize) -> [Geometry; 4] {
    let tight = Geometry::tight(mb_cols, mb_rows);
    let wide = tight.with_strides_above_width(7, 3);
    [
        tight,
        wide,
        tight.with_more_bytes(40),
        wide.with_more_bytes(40),
    ]
}

/// Every position of every size of 1x1 to 4x4 macroblocks.
fn at_every_place(mut visit: impl FnMut((usize, usize), (usize, usize))) {
    for size in 0..16 {
        let (mb_cols, mb_rows) = (1 + size % 4, 1 + size / 4);
        for i in 0..mb_cols * mb_rows {
            visit((mb_cols, mb_rows), (i % mb_cols, i / mb_cols));
        }
    }
}

/// Each of them, in each layout.
fn at_every_position(
    shows: Shows,
    random: &mut Random,
    mut visit: impl FnMut(&Picture, (usize, usize), &mut Random),
) {
    at_every_place(|(mb_cols, mb_rows), at| {
        for geometry in layouts(mb_cols, mb_rows) {
            let picture = Picture::new(shows, geometry, at, random);
            visit(&picture, at, random);
        }
    });
}

/// A component of at most twelve luma pixels.
fn near(random: &mut Random) -> i16 {
    random.within(-48, 48) as i16
}

pub fn near_vector(random: &mut Random) -> Mv {
    Mv {
        row: near(random),
        col: near(random),
    }
}

fn every_position(shows: Shows, random: &mut Random) -> Kind {
    let mut kind = Kind::of_all(&format!("every position, {}", shows.name()));
    at_every_position(shows, random, |picture, at, random| {
        for turn in 0..20 {
            let vectors = Vectors::new([near_vector(random); 16]);
            for (filter, flag) in MODES {
                kind.compare(&Call::on(picture, at, vectors, filter, flag));
            }
            // Mixed vectors are split's alone; whole takes the first of them.
            let (filter, flag) = MODES[turn % 4];
            kind.compare(&Call::on(picture, at, mixed(random), filter, flag));
        }
    });
    kind
}

/// The eight sides, as signs of row and column.
const SIDES: [(&str, i64, i64); 8] = [
    ("above", -1, 0),
    ("below", 1, 0),
    ("left", 0, -1),
    ("right", 0, 1),
    ("above left", -1, -1),
    ("above right", -1, 1),
    ("below left", 1, -1),
    ("below right", 1, 1),
];

/// A component that leaves a 4x4 picture on the side given, or a near one.
fn towards(sign: i64, random: &mut Random) -> i16 {
    match sign {
        0 => near(random),
        1 => random.within(256, i64::from(i16::MAX)) as i16,
        _ => random.within(i64::from(i16::MIN), -256) as i16,
    }
}

fn far_on_side(side: (&str, i64, i64), random: &mut Random) -> Kind {
    let (name, row, col) = side;
    let mut kind = Kind::of_all(&format!("far vectors, {name}"));
    at_every_position(Shows::Noise, random, |picture, at, random| {
        for turn in 0..72 {
            let vectors = Vectors::equal(towards(row, random), towards(col, random));
            let (filter, flag) = MODES[turn % 4];
            kind.compare(&Call::on(picture, at, vectors, filter, flag));
        }
    });
    kind
}

fn about_the_range(random: &mut Random) -> Kind {
    let mut kind = Kind::of_all("equal vectors about the merging range");
    at_every_position(Shows::Noise, random, |picture, at, random| {
        for turn in 0..72 {
            let edge = random.pick(&ABOUT_RANGE);
            let other = if turn % 3 == 0 {
                near(random)
            } else {
                random.pick(&ABOUT_RANGE)
            };
            let vectors = if turn % 2 == 0 {
                Vectors::equal(edge, other)
            } else {
                Vectors::equal(other, edge)
            };
            let (filter, flag) = MODES[turn / 2 % 4];
            kind.compare(&Call::on(picture, at, vectors, filter, flag));
        }
    });
    kind
}

fn mixed(random: &mut Random) -> Vectors {
    Vectors::new(std::array::from_fn(|_| near_vector(random)))
}

fn mixed_over_all_values(random: &mut Random) -> Vectors {
    Vectors::new(std::array::from_fn(|_| {
        let drawn = random.next();
        Mv {
            row: drawn as i16,
            col: (drawn >> 16) as i16,
        }
    }))
}

/// Equal within each quarter of the macroblock.
fn by_quarters(random: &mut Random) -> Vectors {
    let quarters: [Mv; 4] = std::array::from_fn(|_| near_vector(random));
    Vectors::new(std::array::from_fn(|b| quarters[b / 8 * 2 + b % 4 / 2]))
}

/// Equal within each half: upper and lower, or left and right.
fn by_halves(random: &mut Random) -> Vectors {
    let halves: [Mv; 2] = std::array::from_fn(|_| near_vector(random));
    let lying = random.below(2) == 0;
    Vectors::new(std::array::from_fn(|b| {
        halves[if lying { b / 8 } else { b % 4 / 2 }]
    }))
}

/// Fifteen equal vectors, and one that differs in one bit.
fn one_odd(random: &mut Random) -> Vectors {
    let mut list = [near_vector(random); 16];
    let (odd, bit) = (&mut list[random.below(16)], 1 << random.below(16));
    if random.below(2) == 0 {
        odd.row ^= bit;
    } else {
        odd.col ^= bit;
    }
    Vectors::new(list)
}

type Draw = fn(&mut Random) -> Vectors;

const SPLITS: [(&str, Draw); 6] = [
    ("equal", |random| Vectors::new([near_vector(random); 16])),
    ("mixed", mixed),
    ("mixed, over all values", mixed_over_all_values),
    ("equal by quarters", by_quarters),
    ("equal by halves", by_halves),
    ("one of sixteen odd", one_odd),
];

fn splits(name: &str, draw: Draw, random: &mut Random) -> Kind {
    let mut kind = Kind::of_splits(&format!("split vectors, {name}"));
    at_every_position(Shows::Noise, random, |picture, at, random| {
        for turn in 0..72 {
            let (filter, flag) = MODES[turn % 4];
            kind.compare(&Call::on(picture, at, draw(random), filter, flag));
        }
    });
    kind
}

/// Bytes between the rows of U and of V that differ: none on one side, some on
/// both, and the rows of one plane apart by more than those of two.
const APART: [(usize, usize); 5] = [(0, 3), (3, 0), (5, 2), (1, 40), (40, 1)];

/// U and V with strides of their own, and exactly the bytes that each needs.
fn strides_apart(shows: Shows, random: &mut Random) -> Kind {
    let mut kind = Kind::of_all(&format!("U and V strides apart, {}", shows.name()));
    at_every_place(|size, at| {
        for (u, v) in APART {
            let geometry = Geometry::tight(size.0, size.1).with_each_stride_above_width(7, u, v);
            let picture = Picture::new(shows, geometry, at, random);
            for turn in 0..12 {
                let (filter, flag) = MODES[turn % 4];
                let vectors = Vectors::new([near_vector(random); 16]);
                kind.compare(&Call::on(&picture, at, vectors, filter, flag));
                kind.compare(&Call::on(&picture, at, mixed(random), filter, flag));
            }
        }
    });
    kind
}

/// A fault of U or V alone.
type Spoil = fn(&mut Call);

const SPOILS: [(&str, u32, Spoil); 4] = [
    ("U one byte short", 3, |c| c.u = &c.u[..c.u.len() - 1]),
    ("V one byte short", 3, |c| c.v = &c.v[..c.v.len() - 1]),
    ("U's stride one below", 2, |c| {
        c.u_stride = c.mb_cols * 8 - 1
    }),
    ("V's stride one below", 2, |c| {
        c.v_stride = c.mb_cols * 8 - 1
    }),
];

/// The same pictures, with U alone or V alone at fault by its own stride.
fn spoiled_apart((name, due, spoil): (&str, u32, Spoil), random: &mut Random) -> Kind {
    let mut kind = Kind::of_all(&format!("U and V strides apart, {name}"));
    at_every_place(|size, at| {
        for (u, v) in APART {
            let geometry = Geometry::tight(size.0, size.1).with_each_stride_above_width(7, u, v);
            let picture = Picture::new(Shows::Noise, geometry, at, random);
            let mut call = Call::on(&picture, at, mixed(random), 0, 0);
            spoil(&mut call);
            kind.refuse(due, &call);
        }
    });
    kind
}

/// Strides of 32768, the greatest.
fn greatest_strides(random: &mut Random) -> Kind {
    let mut kind = Kind::of_all("strides of 32768");
    let geometry = Geometry {
        y_stride: 32768,
        u_stride: 32768,
        v_stride: 32768,
        ..Geometry::tight(2, 2)
    };
    let picture = Picture::new(Shows::Noise, geometry, (0, 0), random);
    for turn in 0..28_000 {
        let (filter, flag) = MODES[turn % 4];
        let vectors = Vectors::new([near_vector(random); 16]);
        kind.compare(&Call::on(
            &picture,
            (turn / 4 % 2, turn / 8 % 2),
            vectors,
            filter,
            flag,
        ));
    }
    kind
}

/// Every value of the flag: all but 0 are on.
fn every_flag(random: &mut Random) -> Kind {
    let mut kind = Kind::of_all("every value of the flag");
    let picture = Picture::new(Shows::Noise, Geometry::tight(3, 3), (0, 0), random);
    for turn in 0..28_000 {
        let vectors = Vectors::new([near_vector(random); 16]);
        let at = anywhere(picture.geometry, random);
        kind.compare(&Call::on(
            &picture,
            at,
            vectors,
            (turn / 256 % 2) as u8,
            (turn % 256) as u8,
        ));
    }
    kind
}

fn job(sweep: impl FnOnce(&mut Random) -> Kind + Send + 'static) -> Job {
    Box::new(|random| sweep(random).into_tallies())
}

pub fn jobs() -> Vec<Job> {
    let mut jobs = Vec::new();
    for axis in Axis::BOTH {
        let long = ("longest", axis.longest());
        let small = ("4x4", Geometry::tight(4, 4).with_strides_above_width(5, 3));
        jobs.push(job(move |random| every_component(axis, long, 4, random)));
        jobs.push(job(move |random| every_component(axis, small, 1, random)));
    }
    jobs.extend(Shows::ALL.map(|shows| job(move |random| every_position(shows, random))));
    jobs.extend(SIDES.map(|side| job(move |random| far_on_side(side, random))));
    jobs.push(job(about_the_range));
    jobs.extend(SPLITS.map(|(name, draw)| job(move |random| splits(name, draw, random))));
    jobs.extend(Shows::ALL.map(|shows| job(move |random| strides_apart(shows, random))));
    jobs.extend(SPOILS.map(|fault| job(move |random| spoiled_apart(fault, random))));
    jobs.push(job(greatest_strides));
    jobs.push(job(every_flag));
    jobs
}
