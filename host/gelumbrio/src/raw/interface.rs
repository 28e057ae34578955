//! The C interface, as the header has it.

use super::answers::{Answer, Clinic, EditAnswer, ImportAnswer, Part, RubyPlace, SlotNumber};

extern "C" {
    pub(super) fn gelumbrio_set_up(
        sheet: *mut u32,
        sheet_length: usize,
        clinics: *const u32,
        clinics_length: usize,
        measures: *const u32,
        measures_length: usize,
        indents: *const u32,
        indents_length: usize,
    ) -> Answer;

    pub(super) fn gelumbrio_take(sheet: *mut u32, sheet_length: usize, caller: Clinic) -> Answer;

    pub(super) fn gelumbrio_give_back(
        sheet: *mut u32,
        sheet_length: usize,
        caller: Clinic,
        slot: SlotNumber,
    ) -> Answer;

    pub(super) fn gelumbrio_edit(
        sheet: *mut u32,
        sheet_length: usize,
        caller: Clinic,
        slot: SlotNumber,
        place: u32,
        deleted: u32,
        inserted: *const u32,
        inserted_length: usize,
    ) -> EditAnswer;

    pub(super) fn gelumbrio_import(
        sheet: *mut u32,
        sheet_length: usize,
        caller: Clinic,
        slot: SlotNumber,
        size: u32,
        text: *const u8,
        text_length: usize,
    ) -> ImportAnswer;

    pub(super) fn gelumbrio_read_number(
        sheet: *const u32,
        sheet_length: usize,
        caller: Clinic,
        slot: SlotNumber,
    ) -> u32;

    pub(super) fn gelumbrio_read(
        sheet: *const u32,
        sheet_length: usize,
        caller: Clinic,
        slot: SlotNumber,
    ) -> Part;

    pub(super) fn gelumbrio_ruby_place(base_advance: u32, ruby_count: u32, size: u32, k: u32) -> RubyPlace;

    pub(super) fn gelumbrio_in_list(class_number: u32, code: u32) -> u32;

    pub(super) fn gelumbrio_class_of(code: u32) -> u32;
}
