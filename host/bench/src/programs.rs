//! The calls of both programs behind one set of function pointers.

use std::hint::black_box;
use std::ops::Range;

type SetUp = fn(&mut [u32], &[u32], &[u32], &[u32]) -> u32;
/// Plain arguments, as the proved program takes them: its time should not hold unpacking a struct.
type Edit = fn(&mut [u32], u32, u32, u32, u32, &[u32]) -> u32;
type Import = fn(&mut [u32], u32, u32, u32, &[u8]) -> u32;

/// The columns of the two programs.
pub const PROVED: &str = "proved";
pub const SECOND: &str = "second";

/// A program's calls on raw words. All but reads say their number.
#[derive(Clone, Copy)]
pub struct Program {
    /// The column's name.
    pub name: &'static str,
    pub set_up: SetUp,
    pub take: fn(&mut [u32], u32) -> u32,
    pub give_back: fn(&mut [u32], u32, u32) -> u32,
    pub edit: Edit,
    pub import: Import,
    pub read_number: fn(&[u32], u32, u32) -> u32,
    pub read: fn(&[u32], u32, u32) -> Range<usize>,
    pub ruby_place: fn(u32, u32, u32, u32) -> u32,
}

const SECOND_PROGRAM: Program = Program {
    name: SECOND,
    set_up: |sheet, clinics, measures, indents| second::set_up(sheet, clinics, measures, indents).number,
    take: |sheet, caller| black_box(second::take(sheet, caller)).number,
    give_back: |sheet, caller, slot| second::give_back(sheet, caller, slot).number,
    edit: |sheet, caller, slot, place, deleted, inserted| {
        second::edit(sheet, second::Edit { caller, slot, place, deleted, inserted }).number
    },
    import: |sheet, caller, slot, size, text| {
        second::import(sheet, second::Import { caller, slot, size, text }).number
    },
    read_number: second::read_number,
    read: second::read,
    ruby_place: |base_advance, ruby_count, size, k| {
        black_box(second::ruby_place(base_advance, ruby_count, size, k)).number
    },
};

#[cfg(feature = "proved")]
const PROVED_PROGRAM: Program = {
    use gelumbrio::{raw, Clinic, SlotNumber};
    Program {
        name: PROVED,
        set_up: |sheet, clinics, measures, indents| raw::set_up(sheet, clinics, measures, indents).number,
        take: |sheet, caller| black_box(raw::take(sheet, Clinic(caller))).number,
        give_back: |sheet, caller, slot| raw::give_back(sheet, Clinic(caller), SlotNumber(slot)).number,
        edit: |sheet, caller, slot, place, deleted, inserted| {
            raw::edit(sheet, Clinic(caller), SlotNumber(slot), place, deleted, inserted).number
        },
        import: |sheet, caller, slot, size, text| {
            raw::import(sheet, Clinic(caller), SlotNumber(slot), size, text).number
        },
        read_number: |sheet, caller, slot| raw::read_number(sheet, Clinic(caller), SlotNumber(slot)),
        read: |sheet, caller, slot| raw::read(sheet, Clinic(caller), SlotNumber(slot)),
        ruby_place: |base_advance, ruby_count, size, k| {
            black_box(raw::ruby_place(base_advance, ruby_count, size, k)).number
        },
    }
};

/// The programs that are timed.
pub fn all() -> Vec<Program> {
    vec![
        #[cfg(feature = "proved")]
        PROVED_PROGRAM,
        SECOND_PROGRAM,
    ]
}
