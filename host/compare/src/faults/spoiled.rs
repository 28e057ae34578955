//! The words of a slot that an edit has just composed, spoiled by a fault.

use super::fault::Fault;
use super::gaps::set_again;
use crate::layout::{LINES, PLACES, RECORDS, SLOT};

/// Spoils the words of a slot that an edit has just composed.
pub fn spoil_slot(fault: Fault, slot: &mut [u32], old: &[u32]) {
    let (records, lines) = (slot[3] as usize, slot[4] as usize);
    match fault {
        Fault::OldLines => slot[LINES + 3 * lines..].copy_from_slice(&old[LINES + 3 * lines..]),
        Fault::OldPlaces => {
            slot[PLACES + 2 * records..LINES].copy_from_slice(&old[PLACES + 2 * records..LINES])
        }
        Fault::OldRecords => {
            slot[RECORDS + 6 * records..PLACES].copy_from_slice(&old[RECORDS + 6 * records..PLACES])
        }
        Fault::OldZeros => slot[6..8].copy_from_slice(&old[6..8]),
        Fault::IndentForgotten => indent_first_line(slot),
        Fault::LeftoverToLastGap => leftovers_to_last_gap(slot),
        Fault::FinalFlush if lines > 0 && slot[LINES + 3 * lines - 2] == slot[1] => {
            slot[LINES + 3 * lines - 1] = 1
        }
        Fault::LastRecord if records == 256 => slot[LINES - 2..LINES].fill(0),
        Fault::LastLine if lines == 256 => slot[SLOT - 3..].fill(0),
        Fault::Rows(misrow) => misrow.spoil_slot(slot, old),
        Fault::PairShifted(left, right) => shift_pair(slot, left, right),
        Fault::OtherSide(..)
        | Fault::NextStage(..)
        | Fault::TableByColumns
        | Fault::OneSpaceOfTwo
        | Fault::Fields(_) => set_again(fault, slot),
        _ => {}
    }
}

/// Moves line 0 by the indent, without regard to the measure.
fn indent_first_line(slot: &mut [u32]) {
    let (indent, count) = (slot[2], slot[3] as usize);
    for place in slot[PLACES..][..2 * count].chunks_exact_mut(2) {
        if place[1] == 0 {
            place[0] += indent;
        }
    }
    if slot[4] > 0 {
        slot[LINES + 1] += indent;
    }
}

/// In flush lines of ideographs alone, every gap gets the same and the last one what is left.
fn leftovers_to_last_gap(slot: &mut [u32]) {
    let count = slot[3] as usize;
    for line in 0..slot[4] as usize {
        let [first, end_x, kind] = [0, 1, 2].map(|word| slot[LINES + 3 * line + word]);
        let on_line: Vec<usize> =
            (0..count).filter(|at| slot[PLACES + 2 * at + 1] as usize == line).collect();
        let plain_ideograph =
            |at: &usize| slot[RECORDS + 6 * at + 1] == 19 && slot[RECORDS + 6 * at + 4] == 0;
        if kind != 1 || on_line.len() < 3 || !on_line.iter().all(plain_ideograph) {
            continue;
        }
        let advances: u32 = on_line.iter().map(|at| slot[RECORDS + 6 * at + 3]).sum();
        let start = slot[PLACES + 2 * first as usize];
        let each = (end_x - start - advances) / (on_line.len() as u32 - 1);
        let mut x = start;
        for at in &on_line[..on_line.len() - 1] {
            slot[PLACES + 2 * at] = x;
            x += slot[RECORDS + 6 * at + 3] + each;
        }
    }
}

/// Moves each record of the right class and another size that follows one of the left on its line.
fn shift_pair(slot: &mut [u32], left: u32, right: u32) {
    for at in 1..slot[3] as usize {
        let record = |at: usize| &slot[RECORDS + 6 * at..][..6];
        let line = |at: usize| slot[PLACES + 2 * at + 1];
        let (a, b) = (record(at - 1), record(at));
        if a[1] == left && b[1] == right && a[2] != b[2] && line(at - 1) == line(at) {
            slot[PLACES + 2 * at] += 1;
        }
    }
}
