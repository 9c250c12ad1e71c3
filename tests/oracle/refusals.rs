// Calls that may be out of order: numbers compared with a model of them written
// here from the specification, in sums that cannot wrap. A refused call must
// leave its output alone; an accepted one is compared with the original.

use crate::drafts::{any_draft, every_pair, long_plane, part, resolved, Choices, Draft, Pick, TOP};
use crate::jobs::Job;
use crate::sweeps::{compare, words};
use crate::tally::{untouched, Tally};
use sides::random::Random;
use sides::{product, Call, Form, Vectors, SAMPLES};
use Pick::{Is, Limit};

const GREATEST_MB: u128 = 1024;
pub const GREATEST_STRIDE: u128 = 32768;

/// The lowest number that applies.
fn number_due(form: Form, c: &Call) -> u32 {
    match planes_due(c) {
        0 if c.filter > 1 => 5,
        0 if form != Form::Whole && c.vectors_len != 64 => 6,
        0 if c.out_len != SAMPLES => 7,
        number => number,
    }
}

/// The numbers about planes and position: 1 to 4, or 0.
pub fn planes_due(c: &Call) -> u32 {
    let wide = |n: usize| n as u128;
    let (cols, rows) = (wide(c.mb_cols), wide(c.mb_rows));
    let strides = [c.y_stride, c.u_stride, c.v_stride].map(wide);
    let planes = [(c.y, 16), (c.u, 8), (c.v, 8)];
    let good_size = |n: u128| (1..=GREATEST_MB).contains(&n);
    let good_stride = |n: u128, width: u128| (width..=GREATEST_STRIDE).contains(&n);
    let short = |plane: &[u8], side: u128, stride: u128| {
        wide(plane.len()) < needed(cols * side, rows * side, stride)
    };
    let mut each = planes.into_iter().zip(strides);

    if !good_size(cols) || !good_size(rows) {
        1
    } else if !each
        .clone()
        .all(|((_, side), stride)| good_stride(stride, cols * side))
    {
        2
    } else if each.any(|((plane, side), stride)| short(plane, side, stride)) {
        3
    } else if c.mb_col >= c.mb_cols || c.mb_row >= c.mb_rows {
        4
    } else {
        0
    }
}

/// The bytes that a plane needs.
pub fn needed(width: u128, height: u128, stride: u128) -> u128 {
    (height - 1) * stride + width
}

fn check(form: Form, call: &Call, tallies: &mut [Tally; 8]) {
    let due = number_due(form, call);
    let tally = &mut tallies[due as usize];
    if due == 0 {
        compare(form, call, tally);
        return;
    }
    let outcome = untouched(due, |out| unsafe { product(form, call, out) });
    tally.add(outcome, || words(form, call));
}

/// Bytes enough for the largest picture at the greatest stride, and two more.
struct Store {
    y: Vec<u8>,
    u: Vec<u8>,
    v: Vec<u8>,
}

impl Store {
    fn new(random: &mut Random) -> Store {
        let mut plane = |side: u128| {
            let length = GREATEST_MB * side;
            long_plane(needed(length, length, GREATEST_STRIDE) + 2, random)
        };
        Store {
            y: plane(16),
            u: plane(8),
            v: plane(8),
        }
    }
}

// Sizes and positions that would wrap to small ones when multiplied by 16 or 8
// stand beside those at the limits.
#[rustfmt::skip]
const SIZES: &[Pick] = &[
    Is(1), Is(2), Is(3), Is(4), Is(1023), Is(1024),
    Is(0), Is(1025), Is(1 << 28), Is(1 << 60), Is((1 << 60) + 1), Is((1 << 61) + 1), Is(1 << 63), Is(TOP),
];
#[rustfmt::skip]
pub const STRIDES: &[Pick] = &[
    Limit(0), Limit(1), Is(32767), Is(32768),
    Limit(-1), Is(0), Is(1), Is(32769), Is(1 << 32), Is((1 << 60) + 64), Is(1 << 63), Is(TOP),
];
pub const LENGTHS: &[Pick] = &[
    Limit(0),
    Limit(1),
    Limit(2),
    Limit(-1),
    Limit(-2),
    Is(0),
    Is(1),
    Is(64),
];
#[rustfmt::skip]
pub const POSITIONS: &[Pick] = &[
    Is(0), Limit(-1), Is(1),
    Limit(0), Limit(1), Is(1023), Is(1024), Is(1 << 28), Is(1 << 60), Is(1 << 61), Is(1 << 63), Is(TOP),
];
pub const FILTERS: &[Pick] = &[
    Is(0),
    Is(1),
    Is(2),
    Is(3),
    Is(16),
    Is(128),
    Is(254),
    Is(255),
];
const FLAGS: &[Pick] = &[Is(0), Is(1), Is(2), Is(128), Is(255)];
// The greatest length is not true of the buffer lent: the call has to refuse it
// without a look.
const VECTOR_LENGTHS: &[Pick] = &[
    Is(64),
    Is(0),
    Is(1),
    Is(32),
    Is(63),
    Is(65),
    Is(128),
    Is(TOP),
];
const OUT_LENGTHS: &[Pick] = &[
    Is(384),
    Is(0),
    Is(1),
    Is(256),
    Is(383),
    Is(385),
    Is(512),
    Is(TOP),
];

const ARGUMENTS: usize = 14;
const CHOICES: Choices<ARGUMENTS> = [
    SIZES,
    SIZES,
    STRIDES,
    STRIDES,
    STRIDES,
    LENGTHS,
    LENGTHS,
    LENGTHS,
    POSITIONS,
    POSITIONS,
    FILTERS,
    FLAGS,
    VECTOR_LENGTHS,
    OUT_LENGTHS,
];

/// The call that a draft stands for. Where sizes or strides are out of order,
/// the limits of what depends on them are those of the nearest in order.
fn call<'a>(draft: &Draft<ARGUMENTS>, store: &'a Store, vectors: Vectors) -> Call<'a> {
    let take = |argument: usize, limit: u128| resolved(CHOICES[argument][draft[argument]], limit);
    let (mb_cols, mb_rows) = (take(0, 0), take(1, 0));
    let cols = (mb_cols as u128).clamp(1, GREATEST_MB);
    let rows = (mb_rows as u128).clamp(1, GREATEST_MB);
    let (y_stride, u_stride, v_stride) = (take(2, cols * 16), take(3, cols * 8), take(4, cols * 8));
    let need = |side: u128, stride: usize| {
        let stride = (stride as u128).clamp(cols * side, GREATEST_STRIDE);
        needed(cols * side, rows * side, stride)
    };
    Call {
        y: part(&store.y, take(5, need(16, y_stride))),
        u: part(&store.u, take(6, need(8, u_stride))),
        v: part(&store.v, take(7, need(8, v_stride))),
        y_stride,
        u_stride,
        v_stride,
        mb_cols,
        mb_rows,
        mb_col: take(8, cols),
        mb_row: take(9, rows),
        filter: take(10, 0) as u8,
        full_pixel: take(11, 0) as u8,
        vectors,
        vectors_len: take(12, 0),
        out_len: take(13, 0),
    }
}

fn any_vectors(random: &mut Random) -> Vectors {
    let drawn = random.next();
    Vectors::equal(drawn as i16, (drawn >> 16) as i16)
}

/// All filter codes, each with all flags.
fn every_code(store: &Store, mut visit: impl FnMut(&Call)) {
    for code in 0..=u16::MAX {
        let mut call = call(&[0; ARGUMENTS], store, Vectors::equal(3, -5));
        [call.filter, call.full_pixel] = code.to_le_bytes();
        visit(&call);
    }
}

/// A tally for each number that is due of the form.
fn of_form(form: Form, random: &mut Random) -> Vec<Tally> {
    let store = &Store::new(random);
    let title = |number| format!("number {number} due: {}", form.name());
    let mut by_number: [Tally; 8] = std::array::from_fn(|number| Tally::new(title(number)));
    let mut visit = |call: &Call| check(form, call, &mut by_number);
    every_pair(&CHOICES, |draft| {
        visit(&call(draft, store, any_vectors(random)))
    });
    for _ in 0..250_000 {
        visit(&call(
            &any_draft(&CHOICES, random),
            store,
            any_vectors(random),
        ));
    }
    every_code(store, visit);
    // Number 6 is never due of whole prediction.
    by_number.into_iter().filter(Tally::has_calls).collect()
}

pub fn jobs() -> Vec<Job> {
    Form::ALL
        .map(|form| Box::new(move |random: &mut Random| of_form(form, random)) as Job)
        .into()
}
