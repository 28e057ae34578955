//! Times the calls of the proved program and of the second one, beside filling and copying a slot and going through
//! a leaflet.
//!
//! `cargo run --profile timing -p bench` prints a table, `-- --json` the same as JSON. Every cell is
//! the median over rounds; in a round each cell is timed once, so that a busy moment falls on all. Calls of several
//! milliseconds are left out of some rounds.

mod pool;
mod programs;
mod report;
mod texts;
mod timing;
mod work;

use std::process::ExitCode;

use report::Report;

fn main() -> ExitCode {
    let mut json = false;
    for argument in std::env::args().skip(1) {
        match argument.as_str() {
            "--json" => json = true,
            other => {
                eprintln!("unknown argument {other}; the only one is --json");
                return ExitCode::FAILURE;
            }
        }
    }
    let mut cells = work::cells();
    timing::time(&mut cells);
    let report = Report::new(&cells);
    print!("{}", if json { report.json() } else { report.table() });
    ExitCode::SUCCESS
}
