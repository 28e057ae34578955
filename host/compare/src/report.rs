//! A comparison in full, and what is printed of it.

use std::time::Instant;

use crate::comparisons::Comparison;
use crate::program::{Program, SECOND, UNDER_TEST};
use crate::scope::Scope;
use crate::tally::Tally;

/// Says which program a comparison puts under test.
pub fn heading(comparison: &str, program: &dyn Program) -> String {
    format!("{comparison}: under test is {}, beside {SECOND}", program.name())
}

/// Runs a comparison in full against the program under test, and says which that is and what was
/// compared.
///
/// # Panics
///
/// Where a difference is found; the message is the smallest case.
pub fn full(name: &str, comparison: Comparison) -> Tally {
    println!("{}", heading(name, &UNDER_TEST));
    let start = Instant::now();
    match comparison(&UNDER_TEST, Scope::Full) {
        Ok(tally) => {
            let seconds = start.elapsed().as_secs_f64();
            println!("{name}: {} calls compared in {seconds:.1} s", tally.calls());
            println!("{name}: {tally}");
            tally
        }
        Err(failure) => panic!("{failure}"),
    }
}
