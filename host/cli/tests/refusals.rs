//! Refusals, with their place and what to do; none changes a sheet.

mod common;

use std::fs;

use common::Folder;

/// What is said of a leaflet that cannot be composed in lines of so many characters.
#[track_caller]
fn composed(leaflet: impl AsRef<[u8]>, chars: &str) -> String {
    Folder::new().run_with(&["compose", "-", "--chars", chars], leaflet).refused()
}

/// A refusal as it is said of standard input.
fn said(number: u32, what: &str, line: usize, column: usize, text: &str, mark: &str, advice: &str) -> String {
    format!(
        "gelumbrio: refused with {number}: {what}\n  --> standard input, line {line}, column {column}\n   |\n   \
         | {text}\n   | {mark}\n  = {advice}\n"
    )
}

#[test]
fn a_text_that_is_no_leaflet() {
    let none = |character: &str| format!("{character} may not stand here, as it is in no published list");
    for (leaflet, what, column, text, mark, advice) in [
        (
            "1日（朝）",
            none("'（' (U+FF08)"),
            3,
            "1日（朝）",
            "   ^^",
            "Write '〔' (U+3014); Western brackets are no Japanese ones, and may end a line.",
        ),
        (
            "朝 夕",
            none("' ' (U+0020)"),
            2,
            "朝 夕",
            "  ^",
            "Leave it out, or write the ideographic space, U+3000.",
        ),
        (
            "朝\n夕",
            none("'\\n' (U+000A)"),
            2,
            "朝",
            "  ^",
            "A leaflet is one paragraph on one line: join its lines.",
        ),
        ("朝―夕", none("'―' (U+2015)"), 2, "朝―夕", "  ^", "Write '—' (U+2014) in its place."),
        (
            "朝&amp;夕",
            "'&' may not stand in a leaflet".to_string(),
            2,
            "朝&amp;夕",
            "  ^",
            "Write the character itself; character references are not read.",
        ),
        (
            "朝>夕",
            "'>' may stand in a tag only".to_string(),
            2,
            "朝>夕",
            "  ^",
            "〈 and 〉 may stand in a text; < and > stand in tags alone.",
        ),
        (
            "<ruby>朝<rt>あさ</rt>と</ruby>",
            "'と' (U+3068) may not stand here".to_string(),
            19,
            "<ruby>朝<rt>あさ</rt>と</ruby>",
            &(" ".repeat(21) + "^^"),
            "In a ruby element, after the base, text stands in <rt> and <rp> alone.",
        ),
        (
            "<ruby>朝",
            "the text ends here, inside a ruby element".to_string(),
            8,
            "<ruby>朝",
            "        ^",
            "Its end tags are missing: </rt>, </ruby>.",
        ),
    ] {
        assert_eq!(composed(leaflet, "9"), said(17, &what, 1, column, text, mark, advice), "{leaflet}");
    }
    for (character, advice) in [
        ("～", "Write '〜' (U+301C) in its place."),
        ("￥", "Write '¥' (U+00A5) in its place."),
        ("）", "Write '〕' (U+3015); Western brackets"),
        ("ｱ", "Write full-width kana."),
        ("\u{3099}", "Write the kana and its mark as one character."),
        ("🍵", "Write it with other characters"),
    ] {
        let said = composed(format!("か{character}"), "9");
        assert!(said.contains(&format!("\n  = {advice}")), "{said}");
    }
    let tags = composed("朝<br>夕", "9");
    assert!(tags.contains("<br> is none of the tags") && tags.contains("\n   |   ^^^^\n"), "{tags}");
    let shift_jis = composed(b"1\x93\xFA", "9");
    assert!(
        shift_jis.contains("the bytes 93 are no UTF-8") && shift_jis.contains("Shift_JIS"),
        "{shift_jis}"
    );
    for text in ["朝\u{1B}[2J\u{202E}", "朝<\u{202E}b\u{7}>"] {
        let said = composed(text, "9");
        assert!(!said.contains(['\u{1B}', '\u{202E}', '\u{7}']), "{said}");
    }
    let tag = composed("朝<\u{202E}b\u{7}>", "9");
    assert!(tag.contains("\n   |   ^^^^^\n"), "{tag}");
}

#[test]
fn records_that_cannot_be_set_by_way_of_their_characters() {
    let under = composed("朝<ruby>日々<rt>ひび</rt></ruby>", "9");
    let what =
        "'々' (U+3005) may not stand under ruby: ideographs and kana may, small kana and marks may not";
    let text = "朝<ruby>日々<rt>ひび</rt></ruby>";
    let advice = "End the ruby element before it, and begin another after it if need be.";
    assert_eq!(under, said(8, what, 1, 9, text, "          ^^", advice));

    let long = format!("<ruby>{}<rt>か</rt></ruby>", "漢".repeat(17));
    let nine = composed(&long, "20");
    assert!(
        nine.starts_with("gelumbrio: refused with 9: this is the seventeenth character under one ruby"),
        "{nine}"
    );
    assert!(nine.contains("line 1, column 23\n"), "{nine}");

    let ruby = composed(format!("<ruby>漢<rt>{}</rt></ruby>", "か".repeat(65)), "20");
    assert!(
        ruby.contains("refused with 8: there are 65 ruby characters over this, and 64 are the most"),
        "{ruby}"
    );

    let wide = composed("一日1234567890mgを", "4");
    let what = "up to where a line may next end, the text is wider than a line of 320 units";
    let advice = "It needs a line of 480 units, which is 6 characters of size 80; or a smaller --size.";
    assert_eq!(wide, said(10, what, 1, 3, "一日1234567890mgを", "    ^", advice));
    // As it says, so it is.
    let folder = Folder::new();
    folder.run_with(&["compose", "-", "--measure", "480"], "一日1234567890mgを").accepted();
    folder.run_with(&["compose", "-", "--measure", "479"], "一日1234567890mgを").refused();

    let many = composed("漢".repeat(300), "20");
    assert!(
        many.contains("refused with 7: the slot would have 300 characters, and 256 are the most"),
        "{many}"
    );
    assert!(many.contains("line 1, column 257\n"), "{many}");
    for size in ["0", "81", "4008"] {
        let said = folder.run_with(&["compose", "-", "--chars", "9", "--size", size], "漢").refused();
        assert!(said.contains(&format!("refused with 8: {size} is no size")), "{said}");
        let said = folder.run(&["sheet", "new", "ward", "--slot", "7:22:1", "--size", size]).refused();
        assert!(said.contains(&format!("refused with 8: {size} is no size")), "{said}");
    }
}

#[test]
fn lines_that_cannot_be_set() {
    let folder = Folder::new();
    for (options, what) in [
        (&["--chars", "0"][..], "refused with 11: a line of 0 units cannot be set"),
        (&["--measure", "7"], "refused with 11: a line of 7 units cannot be set"),
        (&["--measure", "1000001"], "refused with 11: a line of 1000001 units cannot be set"),
        (&["--chars", "4294967295"], "refused with 11: so long a line cannot be set"),
        (&["--chars", "2", "--indent", "2"], "refused with 11: an indent of 160 units leaves nothing"),
    ] {
        let said = folder.run_with(&[&["compose", "-"], options].concat(), "漢").refused();
        assert!(said.contains(what), "{said}");
    }
    let new =
        |slot: &str| folder.run(&["sheet", "new", "ward", "--slot", "7:22:1", "--slot", slot]).refused();
    assert!(new("65536:22:0").contains("refused with 11: slot 1: there is no clinic 65536"));
    assert!(new("7:22:22").contains("refused with 11: slot 1: an indent of 1760 units"));
    let mut many = vec!["sheet", "new", "ward"];
    many.extend(["--slot", "7:22:0"].repeat(65));
    assert!(folder.run(&many).refused().contains("refused with 1: 65 slots are too many"));
    assert_eq!(folder.names(), [""; 0]);
}

#[test]
fn calls_on_a_sheet() {
    let folder = Folder::with_sheet();
    let import = ["import", "ward", "-", "--clinic", "7", "--slot", "0"];
    folder.run_with(&import, "<ruby>食後<rt>しょくご</rt></ruby>に1回2錠").accepted();
    folder.write("seven.html", "1234567890".repeat(5));
    let before = folder.read("ward");
    for (arguments, number, what) in [
        (&["take", "ward", "--clinic", "7"][..], 13, "clinic 7 has no free slot in ward"),
        (&["take", "ward", "--clinic", "8"], 13, "clinic 8 has no slot in ward"),
        (&["take", "ward", "--clinic", "0"], 3, "clinic 0 is nobody"),
        (&["give", "ward", "--clinic", "7", "--slot", "2"], 2, "ward has no slot 2"),
        (&["give", "ward", "--clinic", "7", "--slot", "1"], 3, "slot 1 of ward is not clinic 7's"),
        (&["give", "ward", "--clinic", "9", "--slot", "1"], 14, "slot 1 of ward is not in use"),
        (&["show", "ward", "--clinic", "9", "--slot", "1"], 14, "slot 1 of ward is not in use"),
        (&["show", "ward", "--clinic", "9", "--slot", "0"], 3, "slot 0 of ward is not clinic 9's"),
        (&["import", "ward", "seven.html", "--clinic", "9", "--slot", "0"], 3, "is not clinic 9's"),
        (
            &["import", "ward", "seven.html", "--clinic", "7", "--slot", "0"],
            10,
            "indent and text are wider than a line of 1760 units",
        ),
        (&["edit", "ward", "--at", "8", "--clinic", "7", "--slot", "0"], 5, "which has 7 records"),
        (&["edit", "ward", "--at", "7", "--delete", "1", "--clinic", "7", "--slot", "0"], 5, "past the end"),
        (
            &["edit", "ward", "seven.html", "--at", "4", "--clinic", "7", "--slot", "0"],
            10,
            "is wider than a line of 1760 units",
        ),
        (
            &["edit", "ward", "seven.html", "--at", "9", "--clinic", "7", "--slot", "0"],
            5,
            "which has 7 records",
        ),
        (
            &["edit", "ward", "seven.html", "--at", "0", "--clinic", "7", "--slot", "1"],
            3,
            "is not clinic 7's",
        ),
    ] {
        let said = folder.run(arguments).refused();
        assert!(said.contains(&format!("refused with {number}: ")) && said.contains(what), "{said}");
        assert!(said.contains("\n  = "), "{said}");
    }
    // What is advised can be typed.
    folder.write("my ward's", &before);
    let said = folder.run(&["take", "my ward's", "--clinic", "8"]).refused();
    assert!(said.contains(r"`gelumbrio sheet check 'my ward'\''s'`"), "{said}");
    fs::remove_file(folder.file("my ward's")).unwrap();
    // 17 comes before all others.
    let foreign = ["edit", "ward", "-", "--at", "9", "--clinic", "9", "--slot", "5"];
    assert!(folder.run_with(&foreign, "（").refused().contains("refused with 17: "));
    assert_eq!(folder.read("ward"), before);
    assert_eq!(folder.names(), ["seven.html", "ward"]);
}

#[test]
fn a_place_among_the_stored_characters() {
    let folder = Folder::new();
    folder.run(&["sheet", "new", "ward", "--slot", "7:3:0"]).accepted();
    folder.run(&["take", "ward", "--clinic", "7"]).accepted();
    let slot = ["--clinic", "7", "--slot", "0"];
    folder.run_with(&[&["import", "ward", "-"], &slot[..]].concat(), "朝12345錠").accepted();
    // The number becomes too long, from its first digit on, which stood there.
    let edit = [&["edit", "ward", "-", "--at", "6"], &slot[..]].concat();
    let said = folder.run_with(&edit, "67").refused();
    assert!(said.contains("--> the slot's text after the edit, record 1\n"), "{said}");
    assert!(said.contains("   | 朝1234567錠\n   |   ^\n"), "{said}");
    // The leaflet's own characters are told by its line.
    let edit = [&["edit", "ward", "-", "--at", "7"], &slot[..]].concat();
    let said = folder.run_with(&edit, "と1234567").refused();
    assert!(said.contains("--> standard input, line 1, column 2\n"), "{said}");
}
