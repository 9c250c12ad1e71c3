// Finished macroblocks, through the C boundary: all blocks full, first
// coefficients alone, and skipped; and all blocks full from levels, which the
// original dequantises first.

use crate::{turns, Case, PLACES};
use sides::finished::{original, product, Coefficients, Finish, Quantiser, Residue};
use sides::pictures::Picture;
use sides::random::Random;
use sides::{in_order, Call, Vectors, SAMPLES};
use std::hint::black_box;

#[derive(Clone, Copy, PartialEq)]
enum Kind {
    Full,
    FirstsAlone,
    Skipped,
    Levels,
}

impl Kind {
    const ALL: [(Kind, &'static str); 4] = [
        (Kind::Full, "full"),
        (Kind::FirstsAlone, "firsts alone"),
        (Kind::Skipped, "skipped"),
        (Kind::Levels, "levels"),
    ];

    /// Numbers as streams have them, none of them 0 where a block is full.
    fn coefficients(self, random: &mut Random) -> Coefficients {
        std::array::from_fn(|i| {
            let most = if self == Kind::Levels { 3 } else { 60 };
            let drawn = random.within(1, most) * (2 * random.below(2) as i64 - 1);
            if self == Kind::FirstsAlone && i % 16 > 0 {
                0
            } else {
                drawn as i16
            }
        })
    }
}

struct Work<'a> {
    call: Call<'a>,
    coefficients: Coefficients,
    skip: u8,
    quantiser: Option<Quantiser>,
}

impl Work<'_> {
    fn residue(&self, form: Finish) -> Residue<'_> {
        Residue {
            coefficients: &self.coefficients,
            count: form.count(),
            skip: self.skip,
            quantiser: self.quantiser,
        }
    }
}

fn works<'a>(picture: &'a Picture, vectors: Vectors, kind: Kind) -> [Work<'a>; PLACES] {
    let mut random = Random::new(14);
    std::array::from_fn(|i| Work {
        call: Call::on(picture, (2 + i % 8, 2 + i / 2), vectors, 0, 0),
        coefficients: kind.coefficients(&mut random),
        skip: u8::from(kind == Kind::Skipped),
        quantiser: (kind == Kind::Levels).then_some(Quantiser {
            base: 20,
            deltas: [0, -2, 1, 0, 3],
        }),
    })
}

fn agree(form: Finish, work: &Work) -> bool {
    let mut out = [0; SAMPLES];
    let number = unsafe { product(form, &work.call, &work.residue(form), out.as_mut_ptr()) };
    let due = original(form, &work.call, &work.residue(form));
    number == 0 && due.is_some_and(|mb| out == in_order(&mb))
}

fn case<'a>(
    picture: &'a Picture,
    form: Finish,
    vectors: Vectors,
    title: String,
    kind: Kind,
) -> Case<'a> {
    let checked = works(picture, vectors, kind);
    Case {
        title,
        goal: Some(1.0),
        agrees: Box::new(move || checked.iter().all(|work| agree(form, work))),
        product: turns(works(picture, vectors, kind), move |work, out| {
            let residue = work.residue(form);
            black_box(unsafe { product(form, &work.call, &residue, out.as_mut_ptr()) });
        }),
        original: turns(works(picture, vectors, kind), move |work, _| {
            black_box(&original(form, &work.call, &work.residue(form)));
        }),
    }
}

pub fn cases(picture: &Picture) -> Vec<Case<'_>> {
    let forms = [
        ("finished whole", Finish::Whole, Vectors::equal(5, -3)),
        (
            "finished whole pixel",
            Finish::WholePixel,
            Vectors::equal(8, -16),
        ),
        ("finished split", Finish::Split, Vectors::equal(5, -3)),
    ];
    let mut list = Vec::new();
    for (name, form, vectors) in forms {
        for (kind, words) in Kind::ALL {
            list.push(case(
                picture,
                form,
                vectors,
                format!("{name}, {words}"),
                kind,
            ));
        }
    }
    list
}
