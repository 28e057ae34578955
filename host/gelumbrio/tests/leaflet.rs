//! Leaflets imported, and faults in them told in words (document 02, request 05).

mod common;

use common::{edited, sheet, two_lines, CLINIC, SLOT};
use gelumbrio::{Clinic, Found, Record, Refusal, SlotNumber};

#[test]
fn a_leaflet_takes_the_place_of_what_stood_there() {
    let mut sheet = two_lines();
    let text = "<ruby>頓服<rp>(</rp><rt>とんぷく</rt><rp>)</rp></ruby>、";
    assert_eq!(sheet.import(CLINIC, SLOT, 80, text), edited(1, 1));
    let group = |code_point| [code_point, 19, 80, 80, 1, 4];
    let records = [group(0x9813), group(0x670D), [0x3001, 7, 80, 40, 0, 0]];
    assert_eq!(sheet.words()[3], 3);
    assert_eq!(sheet.words()[8..][..18], records.concat());
    let mut by_edit = two_lines();
    assert_eq!(by_edit.edit(CLINIC, SLOT, .., &records.map(Record::from)), edited(1, 1));
    assert_eq!(sheet, by_edit);

    // Bytes will do, and an empty leaflet leaves nothing.
    assert_eq!(sheet.import(CLINIC, SLOT, 80, b"5%"), edited(1, 1));
    assert_eq!(sheet.import(CLINIC, SLOT, 7, String::new()), edited(0, 0));
}

/// The fault of a text that is no leaflet: where it is, and how it is told.
fn fault(text: impl AsRef<[u8]>) -> (usize, usize, usize, String) {
    let mut sheet = two_lines();
    let before = sheet.clone();
    // It comes before every other refusal.
    let outcome = sheet.import(Clinic(9), SlotNumber(5), 7, &text);
    assert_eq!(outcome, sheet.import(CLINIC, SLOT, 80, &text));
    assert_eq!(sheet, before);
    let Err(refusal @ Refusal::Leaflet(fault)) = outcome else { panic!("{outcome:?}") };
    assert_eq!(refusal.number(), 17);
    let told = refusal.to_string();
    let (place, why) = told.split_once(": ").expect("a place and what is wrong there");
    assert_eq!(
        place,
        format!("line {}, column {} of the leaflet (byte {})", fault.line, fault.column, fault.offset)
    );
    (fault.offset, fault.line, fault.column, why.to_string())
}

#[test]
fn a_fault_in_a_leaflet_says_what_stands_where() {
    let of_tags = "is none of the tags of a leaflet, which are <ruby>, <rt>, <rp> and their end tags";
    let of_lists = "may not stand here, as it is in no published list";
    for (text, offset, column, why) in [
        ("あ（", 3, 2, format!("'（' (U+FF08) {of_lists}")),
        ("あ\n", 3, 2, format!("'\\n' (U+000A) {of_lists}")),
        ("<ruby>漢<rt>か</rt>あ</ruby>", 21, 18, "'あ' (U+3042) may not stand here".to_string()),
        ("あ>", 3, 2, "'>' may stand in a tag only".to_string()),
        ("あ&amp;", 3, 2, "'&' may not stand in a leaflet".to_string()),
        ("あ<rt>か</rt>", 3, 2, "<rt> may not stand here".to_string()),
        ("あ<br>い", 3, 2, format!("<br> {of_tags}")),
        ("あ<br<b>", 3, 2, format!("<br {of_tags}")),
        ("あ<a\n>", 3, 2, format!("<a {of_tags}")),
        ("あ<b\tid>", 3, 2, format!("<b\\tid> {of_tags}")),
        ("あ<ru", 3, 2, format!("<ru {of_tags}")),
        ("<RUBY>", 0, 1, format!("<RUBY> {of_tags}")),
        // Cut before the character that would pass 32 bytes.
        ("<ruby title=\"ああああああああああ\">", 0, 1, format!("<ruby title=\"ああああああ… {of_tags}")),
        ("<ruby>漢", 9, 8, "the text ends here, inside a ruby element".to_string()),
    ] {
        assert_eq!(fault(text), (offset, 1, column, why), "{text}");
    }
    for (text, offset, hex) in [
        (&b"A\xED\xA0\x80"[..], 1, "ED A0 80"),
        (b"A\xC0\x80", 1, "C0 80"),
        (b"A\xF4\x90\x80\x80\x80", 1, "F4 90 80 80"),
        (b"A\xE3\x81", 1, "E3 81"),
        (b"A\xE3\x81<", 1, "E3 81"),
        (b"\x80\x80", 0, "80"),
        (b"\xFF", 0, "FF"),
    ] {
        assert_eq!(fault(text), (offset, 1, offset + 1, format!("the bytes {hex} are no UTF-8")), "{text:?}");
    }
}

#[test]
fn lines_of_a_leaflet_are_counted_by_their_ends() {
    // Line ends may stand in rt and rp.
    for (ends, line) in [("\n", 2), ("\r\n", 2), ("\r", 2), ("\n\n", 3), ("\r\r\n", 3), ("\n\r", 3)] {
        let text = format!("<ruby>漢<rt>か{ends}漢字</rt>い");
        let (offset, at_line, column, _) = fault(&text);
        assert_eq!((offset, at_line, column), (text.len() - 3, line, 8), "{text:?}");
    }
}

#[test]
fn what_a_fault_found_can_be_matched() {
    let found = |text: &[u8]| match sheet(400).import(CLINIC, SLOT, 80, text) {
        Err(Refusal::Leaflet(fault)) => fault.found,
        outcome => panic!("{outcome:?}"),
    };
    assert_eq!(found(b"&"), Found::Character('&'));
    assert_eq!(found(b"<ruby>"), Found::End);
    assert!(matches!(found(b"<br>"), Found::Tag(tag) if tag.as_bytes() == b"<br>" && !tag.is_cut()));
    assert!(matches!(found(b"\xC0\x80"), Found::IllFormed(bytes) if bytes.as_bytes() == b"\xC0\x80"));
}
