//! What a failed comparison tells its reader.

use std::fmt;

use crate::calls::Case;
use crate::program::Program;
use crate::random::SEED_VARIABLE;
use crate::run::run;
use crate::shrink::smallest;

/// Told in place of a difference where the failing case passes when it is run again.
pub const NOT_SEEN_AGAIN: &str = "the difference did not show again";

/// A difference, the smallest case found that shows one, and how to see it again.
#[derive(Debug, Clone)]
pub struct Failure {
    /// What the program under test is called.
    pub program: String,
    /// The test that found it.
    pub test: &'static str,
    /// The seed of the case, if it is a random one.
    pub seed: Option<u64>,
    /// What differs in the smallest case.
    pub difference: String,
    /// How many calls the smallest case has.
    pub calls: usize,
    /// The smallest case in words.
    pub case: String,
}

impl Failure {
    /// Shrinks a case that fails.
    pub fn new(test: &'static str, seed: Option<u64>, program: &dyn Program, case: &Case) -> Failure {
        let case = smallest(case, &|case| run(program, case).is_err());
        let difference = run(program, &case).err();
        Failure {
            program: program.name(),
            test,
            seed,
            difference: difference.unwrap_or_else(|| NOT_SEEN_AGAIN.to_string()),
            calls: case.calls.len(),
            case: case.to_string(),
        }
    }

    /// Which program failed where, and how.
    pub fn in_one_line(&self) -> String {
        let Failure { program, test, calls, difference, .. } = self;
        format!("{program}: found by {test}, {calls} calls: {difference}")
    }
}

impl fmt::Display for Failure {
    fn fmt(&self, f: &mut fmt::Formatter<'_>) -> fmt::Result {
        writeln!(f, "under test: {}", self.program)?;
        writeln!(f, "{}", self.difference)?;
        writeln!(f, "smallest case found: {}", self.case)?;
        write!(f, "to run it again: cd host && ")?;
        if let Some(seed) = self.seed {
            write!(f, "{SEED_VARIABLE}={seed} ")?;
        }
        write!(f, "cargo test --release -p compare --test {}", self.test)
    }
}
