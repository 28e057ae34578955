//! `show`: a slot of a sheet; and how a paragraph is shown, whichever command has it.

use std::fs;
use std::path::PathBuf;

use gelumbrio::{Sheet, SlotNumber};

use super::Done;
use crate::arguments::{Arguments, Grammar};
use crate::failure::Failure;
use crate::files::{identity, Identity, Staged};
use crate::leaflet::{Element, Leaflet, Reading};
use crate::no_leaflet::no_leaflet;
use crate::paragraph::{groups_of, Paragraph};
use crate::refusals::{composing, Call};
use crate::style::Style;
use crate::{json, picture, scratch, sheet_file, terminal};

pub const GRAMMAR: Grammar = Grammar {
    command: "show",
    once: &["clinic", "slot", "leaflet", "svg", "html"],
    often: &[],
    flags: &["marks", "json"],
    operands: &["FILE"],
    optional: 0,
};

/// In what forms a paragraph is wanted.
#[derive(Debug)]
pub struct Forms {
    svg: Option<PathBuf>,
    html: Option<PathBuf>,
    json: bool,
    marks: bool,
}

impl Forms {
    /// The forms that the arguments name.
    pub fn of(arguments: &Arguments) -> Result<Forms, Failure> {
        for option in ["svg", "html"] {
            if arguments.path(option).is_some_and(|path| path.as_os_str() == "-") {
                return Err(arguments.wrong(format!("--{option} needs a file's name")));
            }
        }
        let (svg, html) = (arguments.path("svg"), arguments.path("html"));
        Ok(Forms { svg, html, json: arguments.has("json"), marks: arguments.has("marks") })
    }

    /// Writes the files that are wanted, and says the rest. All are written before the first is put in place, and none
    /// is put in the place of one that was read.
    pub fn show(&self, paragraph: &Paragraph, title: &str, read: &[Identity]) -> Result<Done, Failure> {
        let mut staged = Vec::new();
        for (path, picture) in [(&self.svg, picture::svg as Draw), (&self.html, picture::html as Draw)] {
            let Some(path) = path else { continue };
            if fs::metadata(path).is_ok_and(|old| read.contains(&identity(&old))) {
                let what = format!("{} was read, and would be lost", path.display());
                return Err(Failure::plain(what).advising("Name another file for the picture."));
            }
            let written = Staged::new(path, picture(paragraph, title, self.marks).as_bytes())?;
            if staged.iter().any(|other: &Staged| other.target() == written.target()) {
                return Err(Failure::plain(format!("{} is named for two pictures", path.display())));
            }
            staged.push(written);
        }
        staged.into_iter().try_for_each(Staged::put_in_place)?;
        Ok(Done::saying(match self.json {
            true => json::json(paragraph),
            false => terminal::lines(paragraph, self.marks, Style::of(&std::io::stdout())),
        }))
    }
}

/// Draws a picture of a paragraph, with a title, and with marks or without.
type Draw = fn(&Paragraph, &str, bool) -> String;

/// Shows a slot.
pub fn run(mut arguments: Arguments) -> Result<Done, Failure> {
    let forms = Forms::of(&arguments)?;
    let (clinic, slot) = (arguments.clinic()?, arguments.slot()?);
    let leaflet = arguments.path("leaflet").map(|path| Leaflet::read(path.as_os_str())).transpose()?;
    let file = arguments.file();
    let sheet = sheet_file::read(&file)?;
    let call = Call { file: &file, sheet: &sheet, clinic, slot };

    // The read's own refusals; its lines are looked at below.
    if let Err(refusal) = sheet.read(clinic, slot) {
        return Err(call.refused(refusal));
    }
    let (sheet, notes) = composed(call)?;
    let elements = leaflet.as_ref().map(|leaflet| elements(&sheet, slot, leaflet)).transpose()?;
    let paragraph = Paragraph::of(&sheet, clinic, slot, elements.as_deref());
    let paragraph = paragraph.map_err(|refusal| call.refused(refusal))?;
    let title = format!("{}, slot {}", file.display(), slot.0);
    let sheet_file = fs::metadata(&file).ok().map(|file| identity(&file));
    let read: Vec<Identity> =
        sheet_file.into_iter().chain(leaflet.map(|leaflet| leaflet.identity())).collect();
    Ok(Done { notes, ..forms.show(&paragraph, &title, &read)? })
}

/// The sheet with the slot as the rules compose its records, and a note where it was not so.
fn composed(call: Call<'_>) -> Result<(Sheet, Vec<String>), Failure> {
    let Call { file, sheet, clinic, slot } = call;
    let mut composed = sheet.clone();
    composed.edit(clinic, slot, 0..0, &[]).map_err(|refusal| call.refused(refusal))?;
    if composed == *sheet {
        return Ok((composed, Vec::new()));
    }
    let note = format!(
        "the lines that slot {} holds are not those of the rules; these are. `{}` stores them.",
        slot.0,
        composing(file, clinic, slot)
    );
    Ok((composed, vec![note]))
}

/// The ruby elements of a leaflet that reads as the slot's records, whatever their sizes.
fn elements(sheet: &Sheet, slot: SlotNumber, leaflet: &Leaflet) -> Result<Vec<Element>, Failure> {
    if let Some(fault) = scratch::leaflet_fault(leaflet.text()) {
        return Err(no_leaflet(fault, leaflet));
    }
    let reading = Reading::of(leaflet.text());
    let records: Vec<_> = sheet.slot(slot).into_iter().flat_map(|slot| slot.records()).collect();
    let characters = reading.letters.iter().map(|letter| u32::from(letter.character));
    let is_same_text = records.iter().map(|record| record.code_point).eq(characters);
    let groups =
        groups_of(&records).into_iter().map(|(first, length)| (first, length, records[first].ruby_count));
    let elements = reading.elements.iter();
    let is_same_ruby =
        groups.eq(elements.map(|element| (element.first, element.length, element.ruby.len() as u32)));
    match is_same_text && is_same_ruby {
        true => Ok(reading.elements),
        false => Err(Failure::plain(format!("{} is not the text of slot {}", leaflet.name(), slot.0))
            .advising("Without --leaflet the slot is shown with marks where its ruby stands.")),
    }
}
