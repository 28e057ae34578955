//! Every pair of classes 27 and 13, in either order, with code points around the digits (document 02,
//! request 01) as far as their lists have them, and digits of class 19 before them, alone and in a group.

use second::in_list;

use crate::calls::{Call, Case, Words};
use crate::comparisons::pairs::texts;
use crate::failure::Failure;
use crate::generate::{plain, usual_advance};
use crate::layout::{RECORDS, SLOT};
use crate::one_slot::OneSlot;
use crate::program::Program;
use crate::run::run;
use crate::scope::Scope;
use crate::tally::Tally;

const TEST: &str = "digits";
const SIZE: u32 = 8;

/// Compares every pair, at every measure up to where all stand on one line.
pub fn compare(program: &dyn Program, scope: Scope) -> Result<Tally, Failure> {
    let mut slot = OneSlot::new(TEST, None, program);
    for measure in (8..50).step_by(scope.choose(1, 5)) {
        slot.set_up(measure, 0)?;
        for left in of_class(27).chain(of_class(13)).chain(of_class(19)).chain(grouped()) {
            for right in of_class(27).chain(of_class(13)) {
                for text in texts(left, right, plain(19, SIZE)) {
                    slot.replace(&text)?;
                }
            }
        }
    }
    let case = stored();
    let seen = run(program, &case).map_err(|_| Failure::new(TEST, None, program, &case))?;
    slot.tally.add(&seen);
    Ok(slot.tally)
}

/// Slots in which a digit and the postfix after it were parted before request 01. Here they are parted
/// as a letter and its postfix, and the letter is then written over.
fn stored() -> Case {
    let text = [plain(19, SIZE), plain(27, SIZE), plain(13, SIZE)].concat();
    // One less than the letter and its postfix take together.
    let measure = SIZE + SIZE / 2 - 1;
    let calls = code_points(27).flat_map(|word| {
        let [set_up, take] = Call::one_slot(7, measure, 0);
        [
            set_up,
            take,
            Call::replace(7, 0, &text),
            Call::Damage { at: RECORDS + 6, word },
            Call::Read { caller: 7, slot: 0 },
            Call::replace(7, 3, &text),
        ]
    });
    Case { length: SLOT, junk: None, calls: calls.collect() }
}

/// Those of the class's list among the digits with the code points beside them, letters, postfixes, and what
/// Unicode calls numeric too.
fn code_points(class: u32) -> impl Iterator<Item = u32> {
    let others = ['a', 'Z', '%', '℃', '°', '㎏', '²', '½', '①', '㊿', 'Ⅴ'];
    let all = (u32::from('0') - 1..=u32::from('9') + 1).chain(others.map(u32::from));
    all.filter(move |&code_point| in_list(class, code_point))
}

fn of_class(class: u32) -> impl Iterator<Item = Words> {
    code_points(class).map(move |code_point| [code_point, class, SIZE, usual_advance(class, SIZE), 0, 0])
}

/// Groups of one record and one ruby character.
fn grouped() -> impl Iterator<Item = Words> {
    code_points(19).map(|code_point| [code_point, 19, SIZE, SIZE, 1, 1])
}
