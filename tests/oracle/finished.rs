// Finished macroblocks: samples compared with the original's over coefficients
// of all kinds, and over levels that stand for them; and the numbers of calls
// that are refused, 11 after all others.

use crate::jobs::Job;
use crate::refusals::planes_due;
use crate::sweeps::{layouts, near_vector, words};
use crate::tally::{untouched, written, Tally};
use sides::finished::{
    original, product, whole_pixels, Coefficients, Finish, Quantiser, Residue, BLOCKS, Y2,
};
use sides::pictures::{Picture, Shows};
use sides::random::Random;
use sides::{at_one_stride, in_order, Call, Form, Vectors, SAMPLES};

const Y2_LIMIT: i64 = 16383;
const LIMIT: i64 = 4095;

/// The limit of number i, with Y2 first.
fn limit(i: usize) -> i64 {
    if i < Y2 {
        Y2_LIMIT
    } else {
        LIMIT
    }
}

// ---- Coefficients ----

fn numbers(mut draw: impl FnMut(usize) -> i64) -> Coefficients {
    std::array::from_fn(|i| draw(i) as i16)
}

fn all_values(random: &mut Random) -> Coefficients {
    numbers(|i| random.within(-limit(i), limit(i)))
}

/// Small numbers, as streams have them.
fn small(random: &mut Random) -> Coefficients {
    numbers(|_| random.within(-60, 60))
}

/// A few in each block.
fn sparse(random: &mut Random) -> Coefficients {
    numbers(|i| match random.below(8) {
        0 => random.within(-limit(i), limit(i)) >> random.below(10),
        _ => 0,
    })
}

/// The first of each block, and no other; some blocks of zeros.
fn firsts(random: &mut Random) -> Coefficients {
    numbers(|i| match (i % 16, random.below(4)) {
        (0, 1..) => random.within(-limit(i), limit(i)),
        _ => 0,
    })
}

/// The greatest and the least.
fn extremes(random: &mut Random) -> Coefficients {
    numbers(|i| match random.below(3) {
        0 => 0,
        1 => limit(i),
        _ => -limit(i),
    })
}

/// Y2 alone, near its limits, so that a first pass leaves sixteen bits.
fn great_y2(random: &mut Random) -> Coefficients {
    numbers(|i| match i {
        0..Y2 => Y2_LIMIT * (2 * random.below(2) as i64 - 1) - random.within(-3, 3).abs(),
        _ if i % 16 == 0 => 0,
        _ => random.within(-2, 2),
    })
    .map(|n| n.clamp(-16383, 16383))
}

type Draw = fn(&mut Random) -> Coefficients;

const KINDS: [(&str, Draw); 6] = [
    ("all values", all_values),
    ("small", small),
    ("sparse", sparse),
    ("firsts alone", firsts),
    ("extremes", extremes),
    ("great Y2", great_y2),
];

// ---- Levels ----

/// What the calls are handed: coefficients, or levels.
#[derive(Clone, Copy, PartialEq)]
enum Given {
    Coefficients,
    Levels,
}

impl Given {
    const ALL: [Given; 2] = [Given::Coefficients, Given::Levels];

    fn words(self) -> &'static str {
        match self {
            Given::Coefficients => "finished",
            Given::Levels => "from levels",
        }
    }

    /// Indices as streams have them, and beyond.
    fn quantiser(self, random: &mut Random) -> Option<Quantiser> {
        let most = random.pick(&[15, 15, 200]);
        (self == Given::Levels).then(|| Quantiser {
            base: random.within(-most / 20, 127 + most / 20) as i32,
            deltas: std::array::from_fn(|_| random.within(-most, most) as i32),
        })
    }
}

/// Coefficients, or the levels whose products come nearest to them from below.
fn given(coefficients: Coefficients, quantiser: Option<Quantiser>) -> Coefficients {
    match quantiser {
        None => coefficients,
        Some(q) => std::array::from_fn(|i| coefficients[i] / q.factor(i)),
    }
}

// ---- Calls ----

fn vectors(form: Finish, random: &mut Random) -> Vectors {
    match form {
        Finish::WholePixel => Vectors::new([whole_pixels(near_vector(random)); 16]),
        _ => Vectors::new(std::array::from_fn(|_| near_vector(random))),
    }
}

fn tally_of(what: Given, form: Finish, title: &str) -> Tally {
    Tally::new(format!("{}, {title}: {}", what.words(), form.name()))
}

fn compare(form: Finish, call: &Call, residue: &Residue, tally: &mut Tally) {
    let due = at_one_stride(call, |even| {
        original(form, even, residue).map(|mb| in_order(&mb))
    });
    let outcome = match due {
        Some(samples) => written(0, &samples, |out| unsafe {
            product(form, call, residue, out)
        }),
        None => untouched(8, |out| unsafe { product(form, call, residue, out) }),
    };
    tally.add(outcome, || told(form, call, residue));
}

fn told(form: Finish, call: &Call, residue: &Residue) -> String {
    let shown = &residue.coefficients[..Y2 + BLOCKS];
    format!(
        "{} finished, skip {}, {} of the coefficients {shown:?}, {:?}; {}",
        form.name(),
        residue.skip,
        residue.count,
        residue.quantiser,
        words(Form::Whole, call)
    )
}

const PICTURES: usize = 500;
const CALLS: usize = 30;

fn coefficients_of(
    what: Given,
    form: Finish,
    (title, draw): (&str, Draw),
    random: &mut Random,
) -> Tally {
    let mut tally = tally_of(what, form, title);
    for turn in 0..PICTURES {
        let geometry = layouts(1 + turn % 3, 1 + turn / 3 % 3)[turn % 4];
        let at = (
            random.below(geometry.mb_cols),
            random.below(geometry.mb_rows),
        );
        let picture = Picture::new(Shows::Noise, geometry, at, random);
        for _ in 0..CALLS {
            let quantiser = what.quantiser(random);
            let coefficients = given(draw(random), quantiser);
            let (filter, flag) = (random.below(2) as u8, random.below(2) as u8);
            let call = Call::on(&picture, at, vectors(form, random), filter, flag);
            let residue = Residue::of(form, &coefficients, 0, quantiser);
            compare(form, &call, &residue, &mut tally);
        }
    }
    tally
}

/// Every value of the skip flag, with coefficients of any size where it is on.
fn every_skip(what: Given, form: Finish, random: &mut Random) -> Tally {
    let mut tally = tally_of(what, form, "every skip value");
    let geometry = layouts(2, 2)[1];
    let picture = Picture::new(Shows::Noise, geometry, (0, 0), random);
    for skip in 0..=255 {
        for _ in 0..20 {
            let quantiser = what.quantiser(random);
            let coefficients = if skip == 0 {
                given(all_values(random), quantiser)
            } else {
                numbers(|_| random.next() as i64)
            };
            let at = (random.below(2), random.below(2));
            let call = Call::on(&picture, at, vectors(form, random), 0, 0);
            let residue = Residue::of(form, &coefficients, skip, quantiser);
            compare(form, &call, &residue, &mut tally);
        }
    }
    tally
}

/// One coefficient at its limit or one beyond, each place in turn; of a level the
/// limit is that of its product, divided by its factor.
fn every_limit(what: Given, form: Finish, random: &mut Random) -> Tally {
    let mut tally = tally_of(what, form, "each at and beyond its limit");
    let geometry = layouts(2, 1)[0];
    let picture = Picture::new(Shows::Noise, geometry, (0, 0), random);
    let first = Y2 + BLOCKS - form.count();
    for i in first..Y2 + BLOCKS {
        let quantiser = what.quantiser(random);
        let most = quantiser.map_or(limit(i), |q| limit(i) / i64::from(q.factor(i)));
        for value in [most, most + 1, -most, -most - 1, 32767, -32768] {
            let mut coefficients = given(small(random), quantiser);
            coefficients[i] = value as i16;
            let call = Call::on(&picture, (random.below(2), 0), vectors(form, random), 0, 1);
            let residue = Residue::of(form, &coefficients, 0, quantiser);
            // What Y2 replaces is not looked at.
            let replaced = first == 0 && (Y2..272).contains(&i) && i % 16 == 0;
            if value.abs() <= most || replaced {
                compare(form, &call, &residue, &mut tally);
            } else {
                let outcome = untouched(11, |out| unsafe { product(form, &call, &residue, out) });
                tally.add(outcome, || told(form, &call, &residue));
            }
        }
    }
    tally
}

/// Faults of all kinds at once, drawn at random: the lowest number is due.
fn faults(what: Given, form: Finish, random: &mut Random) -> Tally {
    let mut tally = tally_of(what, form, "faults at random");
    let geometry = layouts(2, 2)[1];
    let picture = Picture::new(Shows::Noise, geometry, (0, 0), random);
    for _ in 0..40_000 {
        let one_in = |n: usize, random: &mut Random| random.below(n) == 0;
        let at = (random.below(2), random.below(2));
        let mut call = Call::on(
            &picture,
            at,
            vectors(form, random),
            0,
            random.below(2) as u8,
        );
        let quantiser = what.quantiser(random);
        let mut coefficients = given(small(random), quantiser);
        let mut residue_count = form.count();
        let skip = if one_in(3, random) {
            random.next() as u8
        } else {
            0
        };
        if one_in(8, random) {
            call.mb_rows = 1025;
        }
        if one_in(8, random) {
            call.v_stride = 15;
        }
        if one_in(8, random) {
            call.u = &call.u[..call.u.len() - 1 - random.below(20)];
        }
        if one_in(8, random) {
            call.mb_col = 2;
        }
        if one_in(8, random) {
            call.filter = 2;
        }
        if one_in(8, random) {
            call.vectors_len = 63 + 2 * random.below(2);
        }
        if one_in(8, random) {
            call.out_len = 383 + 2 * random.below(2);
        }
        if one_in(4, random) {
            call.vectors = Vectors::new([near_vector(random); 16]);
        }
        let beyond = one_in(3, random);
        if beyond {
            coefficients[Y2 + 1 + random.below(15)] = 4096;
        }
        if one_in(6, random) {
            residue_count = [0, 1, 16, 383, 384, 399, 400, 401][random.below(8)];
        }
        let residue = Residue {
            coefficients: &coefficients,
            count: residue_count,
            skip,
            quantiser,
        };
        let due = number_due(form, &call, &residue, beyond);
        if due == 0 {
            compare(form, &call, &residue, &mut tally);
        } else {
            let outcome = untouched(due, |out| unsafe { product(form, &call, &residue, out) });
            tally.add(outcome, || told(form, &call, &residue));
        }
    }
    tally
}

fn number_due(form: Finish, call: &Call, residue: &Residue, beyond: bool) -> u32 {
    let late = residue.count != form.count() || residue.skip == 0 && beyond;
    let fraction = || original(form, call, residue).is_none();
    match planes_due(call) {
        0 if form != Finish::WholePixel && call.filter > 1 => 5,
        0 if form == Finish::Split && call.vectors_len != 64 => 6,
        0 if call.out_len != SAMPLES => 7,
        0 if form == Finish::WholePixel && fraction() => 8,
        0 if late => 11,
        number => number,
    }
}

/// Every base index, and each delta from -15 to 15.
fn every_index(form: Finish, random: &mut Random) -> Tally {
    let mut tally = tally_of(Given::Levels, form, "every index and delta");
    let geometry = layouts(2, 1)[0];
    let picture = Picture::new(Shows::Noise, geometry, (0, 0), random);
    for base in 0..128 {
        for which in 0..5 {
            for delta in -15..=15 {
                let mut deltas = [0; 5];
                deltas[which] = delta;
                let quantiser = Some(Quantiser { base, deltas });
                let coefficients = given(sparse(random), quantiser);
                let call = Call::on(&picture, (random.below(2), 0), vectors(form, random), 0, 0);
                let residue = Residue::of(form, &coefficients, 0, quantiser);
                compare(form, &call, &residue, &mut tally);
            }
        }
    }
    tally
}

pub fn jobs() -> Vec<Job> {
    let mut list: Vec<Job> = Vec::new();
    for form in Finish::ALL {
        for what in Given::ALL {
            for kind in KINDS {
                list.push(Box::new(move |random| {
                    vec![coefficients_of(what, form, kind, random)]
                }));
            }
            list.push(Box::new(move |random| vec![every_skip(what, form, random)]));
            list.push(Box::new(move |random| {
                vec![every_limit(what, form, random)]
            }));
            list.push(Box::new(move |random| vec![faults(what, form, random)]));
        }
        list.push(Box::new(move |random| vec![every_index(form, random)]));
    }
    list
}
