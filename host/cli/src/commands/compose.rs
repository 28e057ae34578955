//! `compose`: a leaflet's lines.

use gelumbrio::limits::MEASURES;
use gelumbrio::{Refusal, Sheet, SlotNumber};

use super::show::Forms;
use super::Done;
use crate::arguments::{Arguments, Grammar, Length};
use crate::failure::Failure;
use crate::leaflet::{Leaflet, Reading};
use crate::no_leaflet::no_leaflet;
use crate::paragraph::Paragraph;
use crate::refusals::{no_size, Change};
use crate::scratch::{self, CALLER, USUAL_SIZE};

pub const GRAMMAR: Grammar = Grammar {
    command: "compose",
    once: &["chars", "measure", "indent", "size", "svg", "html"],
    often: &[],
    flags: &["marks", "json"],
    operands: &["LEAFLET"],
    optional: 0,
};

/// Composes a leaflet in a slot of its own, and shows it.
pub fn run(mut arguments: Arguments) -> Result<Done, Failure> {
    let forms = Forms::of(&arguments)?;
    let size = size(&arguments)?;
    let (measure, indent) = line(&arguments, size)?;
    let leaflet = Leaflet::read(&arguments.operand().unwrap_or_default())?;

    let (mut sheet, slot) = scratch::fresh(measure, indent).map_err(|limits| {
        let (what, advice) = no_line(measure, indent);
        Failure::numbered(limits.number(), what).advising(advice)
    })?;
    import(&mut sheet, slot, &leaflet, size, measure, indent)?;
    let reading = Reading::of(leaflet.text());
    let paragraph = Paragraph::of(&sheet, CALLER, slot, Some(&reading.elements));
    // What was imported just now can be read.
    let paragraph = paragraph.map_err(|refusal| Failure::plain(refusal.to_string()))?;
    forms.show(&paragraph, leaflet.name(), &[leaflet.identity()])
}

fn import(
    sheet: &mut Sheet,
    slot: SlotNumber,
    leaflet: &Leaflet,
    size: u32,
    measure: u32,
    indent: u32,
) -> Result<(), Failure> {
    match sheet.import(CALLER, slot, size, leaflet.text()) {
        Ok(_) => Ok(()),
        Err(Refusal::Leaflet(fault)) => Err(no_leaflet(fault, leaflet)),
        Err(refusal) => Err(Change::import(leaflet, size).refused(refusal, measure, indent)),
    }
}

/// The size of characters, in which lengths are counted too.
pub fn size(arguments: &Arguments) -> Result<u32, Failure> {
    let size = arguments.number("size")?.unwrap_or(USUAL_SIZE);
    match scratch::is_size(size) {
        true => Ok(size),
        false => {
            let (what, advice) = no_size(size);
            Err(Failure::numbered(8, what).advising(advice))
        }
    }
}

/// Measure and indent in units.
fn line(arguments: &Arguments, size: u32) -> Result<(u32, u32), Failure> {
    let (measure, alone) = match (arguments.number("chars")?, arguments.length("measure", Length::Units)?) {
        (Some(count), None) => (Length::Characters(count), Length::Characters as fn(u32) -> Length),
        (None, Some(measure)) => (measure, Length::Units as fn(u32) -> Length),
        (Some(_), Some(_)) => {
            return Err(arguments.wrong("--chars and --measure both say how long a line is"))
        }
        (None, None) => return Err(arguments.wrong("how long is a line? --chars 22 says, or --measure 1760")),
    };
    let indent = arguments.length("indent", alone)?.unwrap_or(Length::Units(0));
    Ok((measure.units(size), indent.units(size)))
}

const MEASURE: &str = "A measure is 8 to 1,000,000 units.";

/// Why no line has this measure and this indent, and which a line has.
pub fn no_line(measure: u32, indent: u32) -> (String, &'static str) {
    match MEASURES.contains(&measure) {
        false if measure == u32::MAX => ("so long a line cannot be set".to_string(), MEASURE),
        false => (format!("a line of {measure} units cannot be set"), MEASURE),
        true => (
            format!("an indent of {indent} units leaves nothing of a line of {measure}"),
            "An indent is shorter than the line. A number with u is in units: 80u.",
        ),
    }
}
