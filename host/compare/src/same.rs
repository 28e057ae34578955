//! What two programs answer and leave, held against each other.

use std::fmt::Debug;
use std::ops::Range;

use crate::layout;
use crate::program::SECOND;

/// Whether two answers of a call are the same; otherwise what to tell.
pub fn same_answer<A: PartialEq + Debug>(tested: A, other: A, whose: &str) -> Result<(), String> {
    if tested == other {
        return Ok(());
    }
    Err(format!("it answers {tested:?}; {whose}: {other:?}"))
}

/// Whether two numbers of a read are the same; otherwise what to tell.
pub fn same_number(tested: u32, other: u32, whose: &str) -> Result<(), String> {
    if tested == other {
        return Ok(());
    }
    Err(format!("read's number is {tested}; {whose}: {other}"))
}

/// Whether two reads with this number hand back the same part; otherwise what to tell. A refused read hands back 0..0.
/// Where an accepted one is empty, document 01 leaves free where.
pub fn same_part(tested: &Range<usize>, second: &Range<usize>, number: u32) -> Result<(), String> {
    let both_empty = tested.is_empty() && second.is_empty();
    if tested == second || (number == 0 && both_empty) {
        return Ok(());
    }
    Err(format!("read hands back {tested:?}; {SECOND}: {second:?}"))
}

/// Whether two sheets hold the same words; otherwise the first that differs.
pub fn same_words(tested: &[u32], other: &[u32], whose: &str) -> Result<(), String> {
    if tested == other {
        return Ok(());
    }
    match tested.iter().zip(other).position(|(a, b)| a != b) {
        Some(at) => Err(format!("{} is {}; {whose}: {}", layout::name(at), tested[at], other[at])),
        None => Err(format!("the sheet has {} words; {whose}: {}", tested.len(), other.len())),
    }
}
