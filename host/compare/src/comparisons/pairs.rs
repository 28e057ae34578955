//! Every pair of classes, groups among them, in two sizes, at measures around the break points.
//!
//! The pair stands alone, before and after ideographs, so that it is seen shrunk, stretched, broken
//! and held together. In small sizes every measure is tried.

use crate::calls::Words;
use crate::failure::Failure;
use crate::generate::{another, plain, usual, usual_advance};
use crate::layout::CLASSES;
use crate::one_slot::OneSlot;
use crate::program::Program;
use crate::scope::Scope;
use crate::tally::Tally;

const TEST: &str = "pairs";

/// Compares every pair.
pub fn compare(program: &dyn Program, scope: Scope) -> Result<Tally, Failure> {
    let mut slot = OneSlot::new(TEST, None, program);
    for measure in (8..100).rev().step_by(scope.choose(1, 7)) {
        slot.set_up(measure, 0)?;
        for_each_pair(&[8, 16], |left, right| {
            for text in texts(left, right, plain(19, 8)) {
                slot.replace(&text)?;
            }
            Ok(())
        })?;
    }
    if scope == Scope::Full {
        let mut measures = Vec::new();
        for_each_pair(&[80, 120], |left, right| {
            measures.extend(break_points(left, right));
            Ok(())
        })?;
        measures.sort_unstable();
        measures.dedup();
        for measure in measures {
            slot.set_up(measure, 0)?;
            for_each_pair(&[80, 120], |left, right| {
                slot.replace(&[left, right].concat())?;
                slot.replace(&[left, right, plain(19, 80)].concat())
            })?;
        }
    }
    Ok(slot.tally)
}

/// Calls `each` with every pair of units in these sizes, with equal code points and, where the class has more than
/// one, with others.
pub fn for_each_pair(
    sizes: &[u32],
    mut each: impl FnMut(Words, Words) -> Result<(), Failure>,
) -> Result<(), Failure> {
    for &left_size in sizes {
        for &right_size in sizes {
            for left in units(left_size, 1) {
                for right in units(right_size, 2) {
                    each(left, right)?;
                    if let Some(code_point) = another(right[1], right[0]).filter(|_| left[1] == right[1]) {
                        let mut other = right;
                        other[0] = code_point;
                        each(left, other)?;
                    }
                }
            }
        }
    }
    Ok(())
}

/// A unit of each class, a group whose base is longer and one whose ruby is.
fn units(size: u32, group: u32) -> impl Iterator<Item = Words> {
    let groups = [1, 3].map(|ruby_count| [usual(15), 15, size, size, group, ruby_count]);
    CLASSES.into_iter().map(move |class| plain(class, size)).chain(groups)
}

/// The pair alone, and beside ideographs.
pub fn texts(left: Words, right: Words, k: Words) -> [Vec<u32>; 4] {
    [
        [left, right].concat(),
        [left, right, k].concat(),
        [k, left, right].concat(),
        [k, left, right, k, k].concat(),
    ]
}

/// The measures around each width that the pair, or one of it, can have.
fn break_points(left: Words, right: Words) -> Vec<u32> {
    let advance = |record: Words| match record[4] {
        0 => usual_advance(record[1], record[2]),
        _ => record[3].max(record[5] * record[2] / 2),
    };
    let (l, r) = (advance(left), advance(right));
    let mut gaps = vec![0, left[2] / 4 + right[2] / 4, left[2] / 2 + right[2] / 4];
    for size in [left[2], right[2]] {
        gaps.extend([size / 8, size / 4, size / 2]);
    }
    let widths = gaps.into_iter().map(|gap| l + r + gap).chain([l, r]);
    widths.flat_map(|width| [width - 1, width, width + 1]).collect()
}
