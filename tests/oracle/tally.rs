// Counting what was compared and what differs, and a lent output that shows
// which of its bytes a call has changed.

/// Differences told in full; beyond that they are only counted.
const TOLD: u64 = 5;

pub struct Tally {
    title: String,
    calls: u64,
    samples: u64,
    wrong_numbers: u64,
    wrong_samples: u64,
    /// Calls that changed a byte which they had no business with.
    stray: u64,
}

/// What one call has shown.
pub struct Outcome {
    pub number: u32,
    pub due: u32,
    pub samples: usize,
    pub wrong_samples: usize,
    pub stray: bool,
}

impl Outcome {
    fn agrees(&self) -> bool {
        self.number == self.due && self.wrong_samples == 0 && !self.stray
    }
}

impl Tally {
    pub fn new(title: impl Into<String>) -> Tally {
        Tally {
            title: title.into(),
            calls: 0,
            samples: 0,
            wrong_numbers: 0,
            wrong_samples: 0,
            stray: 0,
        }
    }

    /// `words` say which call it was.
    pub fn add(&mut self, outcome: Outcome, words: impl FnOnce() -> String) {
        let Outcome {
            number,
            due,
            samples,
            wrong_samples,
            stray,
        } = outcome;
        if !outcome.agrees() && self.differing() < TOLD {
            eprintln!(
                "differs in {}: number {number}, due {due}, from {}",
                self.title,
                words()
            );
        }
        self.calls += 1;
        self.samples += samples as u64;
        self.wrong_numbers += u64::from(number != due);
        self.wrong_samples += wrong_samples as u64;
        self.stray += u64::from(stray);
    }

    pub fn has_calls(&self) -> bool {
        self.calls > 0
    }

    fn differing(&self) -> u64 {
        self.wrong_numbers + self.wrong_samples + self.stray
    }
}

pub fn print_header() {
    println!(
        "What was compared; then wrong numbers, wrong samples, and calls that wrote elsewhere:"
    );
    print_row(
        "",
        ["calls", "samples", "numbers", "samples", "stray"].map(String::from),
    );
}

fn print_row(title: &str, columns: [String; 5]) {
    let [calls, samples, wrong_numbers, wrong_samples, stray] = columns;
    println!(
        "{title:<52} {calls:>9} {samples:>12} {wrong_numbers:>8} {wrong_samples:>8} {stray:>8}"
    );
}

/// Sums over all that was printed.
#[derive(Default)]
pub struct Total {
    calls: u64,
    samples: u64,
    differing: u64,
}

impl Total {
    pub fn print(&mut self, tally: &Tally) {
        let t = tally;
        let columns = [
            t.calls,
            t.samples,
            t.wrong_numbers,
            t.wrong_samples,
            t.stray,
        ];
        print_row(&t.title, columns.map(|n| n.to_string()));
        self.calls += t.calls;
        self.samples += t.samples;
        self.differing += t.differing();
    }

    /// Prints the sums, and says whether nothing differed.
    pub fn close(&self) -> bool {
        println!(
            "{} calls and {} samples compared, {} differ",
            self.calls, self.samples, self.differing
        );
        self.differing == 0
    }
}

const GUARD: usize = 64;
const CAPACITY: usize = 512;

/// An output to lend, with bytes before and after it that no call may change.
struct Lent {
    bytes: [u8; GUARD + CAPACITY + GUARD],
}

impl Lent {
    const FRESH: Lent = Lent {
        bytes: [0x5A; GUARD + CAPACITY + GUARD],
    };

    /// Every sample is other than the one expected, so that one left unwritten
    /// shows.
    fn unlike(expected: &[u8]) -> Lent {
        let mut lent = Lent::FRESH;
        for (byte, sample) in lent.bytes[GUARD..].iter_mut().zip(expected) {
            *byte = !sample;
        }
        lent
    }

    fn start(&mut self) -> *mut u8 {
        self.bytes[GUARD..].as_mut_ptr()
    }

    fn is_fresh(&self, from: usize, to: usize) -> bool {
        self.bytes[from..to] == Lent::FRESH.bytes[from..to]
    }
}

/// A call that is due to give a number and to write the samples expected. It is
/// handed an output of 512 bytes, of which it may write as many as expected.
pub fn written(due: u32, expected: &[u8], call: impl FnOnce(*mut u8) -> u32) -> Outcome {
    let mut lent = Lent::unlike(expected);
    let number = call(lent.start());
    let end = GUARD + expected.len();
    Outcome {
        number,
        due,
        samples: expected.len(),
        wrong_samples: differing(&lent.bytes[GUARD..end], expected),
        stray: !lent.is_fresh(0, GUARD) || !lent.is_fresh(end, lent.bytes.len()),
    }
}

/// A call that is due to be refused and to write nothing.
pub fn untouched(due: u32, call: impl FnOnce(*mut u8) -> u32) -> Outcome {
    written(due, &[], call)
}

pub fn differing(got: &[u8], due: &[u8]) -> usize {
    if got == due {
        return 0;
    }
    got.iter().zip(due).filter(|(a, b)| a != b).count()
}
