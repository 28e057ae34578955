//! The program under test run side by side with the second one.
//!
//! [`comparisons`] holds one comparison in each module. The tests in tests/ run them in full
//! against the proved program ([`report`]), and in brief against planted [`faults`], each of which must be found.
//!
//! Every random case comes from a seed of its own, and a failure names it: GELUMBRIO_SEED set to
//! that seed runs that case alone.

pub mod caller;
pub mod calls;
pub mod comparisons;
pub mod failure;
pub mod faults;
pub mod generate;
pub mod layout;
pub mod one_slot;
pub mod program;
pub mod random;
pub mod report;
pub mod rows;
pub mod run;
pub mod same;
pub mod scope;
pub mod shrink;
pub mod single;
pub mod tally;
pub mod texts;
