// Compares the product's static library with the original Rust, call by call.
// Prints what was compared; exit status 1 where anything differs.

mod drafts;
mod finished;
mod jobs;
mod refusals;
#[cfg(shims)]
mod shims;
mod sweeps;
mod tally;

use std::process::ExitCode;
use tally::Total;

fn main() -> ExitCode {
    let mut list = sweeps::jobs();
    list.extend(refusals::jobs());
    list.extend(finished::jobs());
    #[cfg(shims)]
    list.extend(shims::jobs());

    let mut total = Total::default();
    tally::print_header();
    jobs::run(list, |tally| total.print(&tally));
    if total.close() {
        ExitCode::SUCCESS
    } else {
        ExitCode::FAILURE
    }
}
