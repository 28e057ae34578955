//! Medians of interleaved rounds.

use std::time::{Duration, Instant};

/// Rounds; the median of an odd number is one of them.
const ROUNDS: usize = 201;

/// How long one cell runs in one round: short, so that neighbours meet the same moment.
const SLICE: Duration = Duration::from_micros(400);

/// The fewest rounds in which a cell is timed: one whose calls take long is left out of some.
const FEWEST_ROUNDS: usize = 9;

/// Something to time: a column of a row.
pub struct Cell {
    pub row: &'static str,
    pub column: &'static str,
    /// Makes one call; what it takes is timed.
    pub call: Box<dyn FnMut()>,
    /// Nanoseconds per call in each round.
    pub nanoseconds: Vec<f64>,
}

impl Cell {
    pub fn new(row: &'static str, column: &'static str, call: impl FnMut() + 'static) -> Cell {
        Cell { row, column, call: Box::new(call), nanoseconds: Vec::new() }
    }

    /// The median over the rounds.
    pub fn median(&self) -> f64 {
        let mut sorted = self.nanoseconds.clone();
        sorted.sort_by(f64::total_cmp);
        sorted.get(sorted.len() / 2).copied().unwrap_or(f64::NAN)
    }

    /// The time of this many calls.
    fn run(&mut self, calls: u32) -> Duration {
        let start = Instant::now();
        for _ in 0..calls {
            (self.call)();
        }
        start.elapsed()
    }

    /// How many calls fill a slice, found by doubling. The first call is not counted: it may touch
    /// each page of a new sheet, and take a slice by itself.
    fn calls_per_slice(&mut self) -> u32 {
        self.run(1);
        let mut calls = 1;
        while self.run(calls) < SLICE && calls < 1 << 24 {
            calls *= 2;
        }
        calls
    }
}

/// How a cell is timed.
struct Plan {
    /// How many calls are made in a round.
    calls: u32,
    /// Of so many rounds it is timed in one, so that in all it takes a slice of each.
    rounds: usize,
}

impl Plan {
    fn of(cell: &mut Cell) -> Plan {
        let calls = cell.calls_per_slice();
        if calls > 1 {
            return Plan { calls, rounds: 1 };
        }
        let slices = cell.run(1).as_nanos() / SLICE.as_nanos();
        Plan { calls, rounds: (slices as usize).clamp(1, ROUNDS / FEWEST_ROUNDS) }
    }
}

/// Times every cell once in each round, but for those whose calls take several slices; forwards and backwards in turn,
/// so that no cell always runs in the caches that the same neighbour left.
pub fn time(cells: &mut [Cell]) {
    let plans: Vec<Plan> = cells.iter_mut().map(Plan::of).collect();
    let mut order: Vec<usize> = (0..cells.len()).collect();
    for round in 0..ROUNDS {
        for &i in order.iter().filter(|&&i| round.is_multiple_of(plans[i].rounds)) {
            let calls = plans[i].calls;
            let per_call = cells[i].run(calls).as_nanos() as f64 / f64::from(calls);
            cells[i].nanoseconds.push(per_call);
        }
        order.reverse();
    }
}
