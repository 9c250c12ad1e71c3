// Whole macroblocks, through the C boundary: the cases that have goals, and the
// stack of the largest call.

use crate::{stack, turns, Case, PLACES};
use sides::pictures::Picture;
use sides::{in_order, original, product, Call, Form, Mv, Vectors, SAMPLES};
use std::ffi::c_void;
use std::hint::black_box;

#[derive(Clone, Copy, PartialEq)]
enum Where {
    Inside,
    LeftEdge,
}

#[derive(Clone, Copy)]
struct Input {
    title: &'static str,
    form: Form,
    place: Where,
    vectors: Vectors,
    filter: u8,
    goal: Option<f64>,
}

impl Input {
    fn new(title: &'static str, form: Form, vectors: Vectors, goal: Option<f64>) -> Input {
        Input {
            title,
            form,
            place: Where::Inside,
            vectors,
            filter: 0,
            goal,
        }
    }

    fn whole(title: &'static str, row: i16, col: i16, goal: f64) -> Input {
        Input::new(title, Form::Whole, Vectors::equal(row, col), Some(goal))
    }

    fn calls<'a>(&self, picture: &'a Picture) -> [Call<'a>; PLACES] {
        std::array::from_fn(|i| {
            let col = if self.place == Where::Inside {
                2 + i % 8
            } else {
                0
            };
            Call::on(picture, (col, 2 + i / 2), self.vectors, self.filter, 0)
        })
    }

    fn case(self, picture: &Picture) -> Case<'_> {
        let calls = self.calls(picture);
        Case {
            title: self.title.into(),
            goal: self.goal,
            agrees: Box::new(move || calls.iter().all(|call| agree(self.form, call))),
            product: turns(calls, move |call, out| {
                black_box(unsafe { product(self.form, call, out.as_mut_ptr()) });
            }),
            original: turns(calls, move |call, _| {
                black_box(&original(self.form, call));
            }),
        }
    }
}

/// Sixteen different vectors, of all kinds of fraction.
fn mixed() -> Vectors {
    let component = |n: usize, span: usize| (n % span) as i16 - (span / 2) as i16;
    Vectors::new(std::array::from_fn(|b| Mv {
        row: component(7 * b + 3, 23),
        col: component(5 * b + 1, 19),
    }))
}

/// Four vectors, each for the blocks that `part` gives its number.
fn parts(part: impl Fn(usize) -> usize) -> Vectors {
    let vectors = [(5, -3), (-3, 6), (7, 1), (-9, 11)];
    Vectors::new(std::array::from_fn(|b| {
        let (row, col) = vectors[part(b)];
        Mv { row, col }
    }))
}

pub const SPLIT_EQUAL: &str = "split, equal vectors";
pub const MERGING_EQUAL: &str = "merging, equal vectors";

/// Of quarters, split on the same input, and the most that the one's time is to
/// be of the other's.
pub const QUARTERS: [(&str, &str, f64); 5] = [
    ("quarters, four quarters", "split, four quarters", 0.55),
    ("quarters, halves of 16x8", "split, halves of 16x8", 0.55),
    ("quarters, halves of 8x16", "split, halves of 8x16", 0.55),
    ("quarters, equal vectors", SPLIT_EQUAL, 0.6),
    ("quarters, mixed vectors", "split, mixed vectors", 1.04),
];

fn inputs() -> [Input; 19] {
    let equal = Vectors::equal(5, -3);
    let quarters = parts(|b| b / 8 * 2 + b % 4 / 2);
    let above = parts(|b| b / 8);
    let beside = parts(|b| b % 4 / 2);
    [
        Input::whole("whole, two dimensions", 5, -3, 0.33),
        Input::whole("whole, across only", 8, -3, 0.45),
        Input::whole("whole, down only", 5, -8, 0.45),
        Input::whole("whole, whole pixel", 8, -16, 0.8),
        Input {
            filter: 1,
            ..Input::whole("whole, bilinear", 5, -3, 0.25)
        },
        Input {
            filter: 1,
            ..Input::whole("whole, bilinear across only", 8, -3, 0.25)
        },
        Input {
            filter: 1,
            ..Input::whole("whole, bilinear down only", 5, -8, 0.25)
        },
        Input {
            place: Where::LeftEdge,
            ..Input::whole("whole, at the picture's edge", 9, -7, 0.4)
        },
        Input::new("split, mixed vectors", Form::Split, mixed(), Some(0.55)),
        Input::new(SPLIT_EQUAL, Form::Split, equal, None),
        Input::new(MERGING_EQUAL, Form::Merging, equal, None),
        Input::new("split, four quarters", Form::Split, quarters, None),
        Input::new("split, halves of 16x8", Form::Split, above, None),
        Input::new("split, halves of 8x16", Form::Split, beside, None),
        Input::new(QUARTERS[0].0, Form::Quarters, quarters, None),
        Input::new(QUARTERS[1].0, Form::Quarters, above, None),
        Input::new(QUARTERS[2].0, Form::Quarters, beside, None),
        Input::new(QUARTERS[3].0, Form::Quarters, equal, None),
        Input::new(QUARTERS[4].0, Form::Quarters, mixed(), None),
    ]
}

pub fn cases(picture: &Picture) -> Vec<Case<'_>> {
    inputs().map(|input| input.case(picture)).into()
}

fn agree(form: Form, call: &Call) -> bool {
    let mut out = [0; SAMPLES];
    let number = unsafe { product(form, call, out.as_mut_ptr()) };
    number == 0 && out == in_order(&original(form, call))
}

// ---- Stack ----

#[derive(Clone, Copy)]
enum Side {
    Neither,
    Product,
    Original,
}

struct Job<'a> {
    side: Side,
    form: Form,
    call: Call<'a>,
}

extern "C" fn run_job(job: *const c_void) {
    let job = unsafe { &*job.cast::<Job>() };
    match job.side {
        Side::Neither => {}
        Side::Product => run_product(job),
        Side::Original => run_original(job),
    }
}

/// Where the stack's measured calls write, so that it is not on that stack.
static mut OUT: [u8; SAMPLES] = [0; SAMPLES];

#[inline(never)]
fn run_product(job: &Job) {
    black_box(unsafe { product(job.form, &job.call, (&raw mut OUT).cast()) });
}

#[inline(never)]
fn run_original(job: &Job) {
    black_box(&original(job.form, &job.call));
}

fn stack_of(side: Side, form: Form, call: Call) -> usize {
    let job = Job { side, form, call };
    stack::used(run_job, (&raw const job).cast())
}

/// The most stack that a side's calls of one form use, beyond the measuring
/// function's own.
fn most_stack(side: Side, form: Form, picture: &Picture) -> usize {
    let own_form = |input: &Input| (input.form == Form::Whole) == (form == Form::Whole);
    let beyond = |input: Input| {
        let call = input.calls(picture)[0];
        stack_of(side, form, call) - stack_of(Side::Neither, form, call)
    };
    let inputs = inputs().into_iter().filter(own_form);
    inputs.map(beyond).max().unwrap_or(0)
}

pub fn print_stack(picture: &Picture) {
    println!("stack of the largest call, bytes, its arguments and return address included");
    println!("{:<36} {:>8} {:>8}", "", "product", "Rust");
    for form in Form::ALL {
        let [product, original] =
            [Side::Product, Side::Original].map(|side| most_stack(side, form, picture));
        println!("{:<36} {product:>8} {original:>8}", form.name());
    }
}
