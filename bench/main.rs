// Times the product's static library and the original Rust on the same inputs,
// in one process, and measures the stack that their calls use.
//
// Both sides are treated alike: each writes its samples to one buffer on the
// caller's stack, warm and never cleared; each goes through the same list of
// calls; in every round both are timed, and which comes first alternates. The
// least time of all rounds counts.
//
// With the word `titles` it only lists its cases, with `stack` it only measures
// the stack; with three words, the number of a case, `product` or `Rust`, and a
// number of turns, it only makes that side's calls so often: bench/count has an
// emulator count their instructions.

mod finished;
mod macroblocks;
mod one_plane;
mod stack;

use sides::pictures::{Geometry, Picture, Shows};
use sides::random::Random;
use std::hint::black_box;
use std::process::ExitCode;
use std::time::Instant;

const ROUNDS: usize = 40;
const TURNS: usize = 125;

/// Calls that a turn makes, each at another place of the picture.
pub const PLACES: usize = 16;

/// One side's calls, made so many turns.
pub type Turns<'a> = Box<dyn Fn(usize) + 'a>;

pub struct Case<'a> {
    pub title: String,
    /// The product's time over the original's is to be no more than this.
    pub goal: Option<f64>,
    /// Both sides give the same samples.
    pub agrees: Box<dyn Fn() -> bool + 'a>,
    pub product: Turns<'a>,
    pub original: Turns<'a>,
}

/// Room for the samples of the largest call.
pub const ROOM: usize = 441;

/// A side's turns, from what it does with one call and the output.
pub fn turns<'a, C: 'a>(calls: [C; PLACES], run: impl Fn(&C, &mut [u8; ROOM]) + 'a) -> Turns<'a> {
    Box::new(move |turns| {
        let mut out = [0; ROOM];
        for _ in 0..turns {
            for call in &calls {
                run(black_box(call), &mut out);
                black_box(&out);
            }
        }
    })
}

/// Nanoseconds of one call, when each of the list is made `TURNS` times.
fn time(side: &Turns) -> f64 {
    let start = Instant::now();
    side(TURNS);
    start.elapsed().as_secs_f64() * 1e9 / (TURNS * PLACES) as f64
}

/// The least times of both sides so far.
#[derive(Clone, Copy)]
struct Best {
    product: f64,
    original: f64,
}

impl Best {
    const NONE: Best = Best {
        product: f64::INFINITY,
        original: f64::INFINITY,
    };

    fn take_round(&mut self, round: usize, case: &Case) {
        for side in [round % 2, (round + 1) % 2] {
            if side == 0 {
                self.product = self.product.min(time(&case.product));
            } else {
                self.original = self.original.min(time(&case.original));
            }
        }
    }

    fn ratio(&self) -> f64 {
        self.product / self.original
    }
}

fn best_of(cases: &[Case]) -> Vec<Best> {
    let mut best = vec![Best::NONE; cases.len()];
    for round in 0..ROUNDS {
        for (case, best) in cases.iter().zip(&mut best) {
            best.take_round(round, case);
        }
    }
    best
}

fn verdict(met: bool) -> &'static str {
    if met {
        "met"
    } else {
        "missed"
    }
}

fn print_times(cases: &[Case], best: &[Best]) {
    println!(
        "best of {ROUNDS} rounds of {} calls, nanoseconds a call",
        TURNS * PLACES
    );
    println!(
        "{:<36} {:>8} {:>8} {:>7} {:>6}",
        "", "product", "Rust", "ratio", "goal"
    );
    for (case, best) in cases.iter().zip(best) {
        let Best { product, original } = best;
        let ratio = best.ratio();
        let goal = case.goal.map_or("     -".into(), |goal| {
            format!("{goal:>6.2} {}", verdict(ratio <= goal))
        });
        println!(
            "{:<36} {product:>8.1} {original:>8.1} {ratio:>7.3} {goal}",
            case.title
        );
    }
}

const MERGING_GOAL: f64 = 2.2;

/// The product's time in the case of this title.
fn product(title: &str, cases: &[Case], best: &[Best]) -> f64 {
    let at = cases
        .iter()
        .position(|case| case.title == title)
        .expect("the case stands in the list");
    best[at].product
}

fn print_merging(cases: &[Case], best: &[Best]) {
    let product = |title| product(title, cases, best);
    let times = product(macroblocks::SPLIT_EQUAL) / product(macroblocks::MERGING_EQUAL);
    let met = verdict(times >= MERGING_GOAL);
    println!(
        "merging is {times:.2} times as fast as split on equal vectors; goal {MERGING_GOAL}: {met}"
    );
}

fn print_quarters(cases: &[Case], best: &[Best]) {
    println!("quarters over split, on the same input");
    for (quarters, split, goal) in macroblocks::QUARTERS {
        let ratio = product(quarters, cases, best) / product(split, cases, best);
        let met = verdict(ratio <= goal);
        println!("{quarters:<36} {ratio:>7.3} {goal:>6.2} {met}");
    }
}

/// One side's calls of one case, and nothing else.
fn only_calls(words: &[String], cases: &[Case]) -> Option<()> {
    let [case, side, turns] = words else {
        return None;
    };
    let case = cases.get(case.parse::<usize>().ok()?)?;
    let side = match side.as_str() {
        "product" => &case.product,
        "Rust" => &case.original,
        _ => return None,
    };
    side(turns.parse().ok()?);
    Some(())
}

fn timed(cases: &[Case], of_macroblocks: usize, picture: &Picture) -> ExitCode {
    for case in cases {
        if !(case.agrees)() {
            println!("{}: the two sides differ", case.title);
            return ExitCode::FAILURE;
        }
    }
    println!("processor: {}", std::env::consts::ARCH);
    let best = best_of(cases);
    print_times(cases, &best);
    print_merging(&cases[..of_macroblocks], &best);
    print_quarters(&cases[..of_macroblocks], &best);
    macroblocks::print_stack(picture);
    ExitCode::SUCCESS
}

fn main() -> ExitCode {
    let geometry = Geometry::tight(12, 12);
    let picture = Picture::new(Shows::Noise, geometry, (0, 0), &mut Random::new(4));
    let mut cases = macroblocks::cases(&picture);
    let of_macroblocks = cases.len();
    cases.extend(finished::cases(&picture));
    cases.extend(one_plane::cases(&picture));
    let words: Vec<String> = std::env::args().skip(1).collect();
    match &words[..] {
        [] => timed(&cases, of_macroblocks, &picture),
        [titles] if titles == "titles" => {
            cases.iter().for_each(|case| println!("{}", case.title));
            ExitCode::SUCCESS
        }
        [stack] if stack == "stack" => {
            macroblocks::print_stack(&picture);
            ExitCode::SUCCESS
        }
        _ => match only_calls(&words, &cases) {
            Some(()) => ExitCode::SUCCESS,
            None => ExitCode::from(2),
        },
    }
}
