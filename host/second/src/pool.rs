//! Taking a slot and giving one back (document 02, request 07).

use crate::answer::{Answer, Refusal};
use crate::sheet::{fresh_slot, slot_count, slot_in_use, stored_text, Head, IN_USE_AT, SLOT_WORDS};

/// Take: the caller's lowest-numbered slot that is not in use becomes one in use, and its number is the place.
pub fn take(sheet: &mut [u32], caller: u32) -> Answer {
    Answer::from(try_take(sheet, caller))
}

/// Give back: a slot of the caller's becomes as set-up left it.
pub fn give_back(sheet: &mut [u32], caller: u32, slot: u32) -> Answer {
    Answer::from(try_give_back(sheet, caller, slot).map(|()| 0))
}

/// The number of the slot that a caller takes, of these by clinic and in-use word; otherwise answer 3 or 13.
pub fn lowest_free(caller: u32, mut slots: impl Iterator<Item = (u32, u32)>) -> Result<usize, Refusal> {
    if caller == 0 {
        return Err(Refusal::Caller);
    }
    slots.position(|slot| slot == (caller, 0)).ok_or(Refusal::NoneFree)
}

fn try_take(sheet: &mut [u32], caller: u32) -> Result<usize, Refusal> {
    slot_count(sheet.len())?; // 1
    let (slots, _) = sheet.as_chunks_mut::<SLOT_WORDS>();
    let heads = slots.iter().map(Head::of);
    let number = lowest_free(caller, heads.map(|head| (head.clinic, head.in_use)))?; // 3 and 13
    slots[number][IN_USE_AT] = 1;
    Ok(number)
}

/// Edit's table up to 4.
fn try_give_back(sheet: &mut [u32], caller: u32, slot: u32) -> Result<(), Refusal> {
    let (number, head) = slot_in_use(sheet, caller, slot)?; // 1, 2, 3 and 14
    let (slots, _) = sheet.as_chunks_mut::<SLOT_WORDS>();
    let slot = &mut slots[number];
    stored_text(slot, &head).ok_or(Refusal::Stored)?; // 4
    *slot = fresh_slot(head.clinic, head.setting);
    Ok(())
}
