//! `compose`: lines in the terminal, pictures and JSON, of the examples and of small leaflets.

mod common;

use std::fs;

use common::{root, run, Folder};

/// Each example that is no fault, and how it is composed for its picture.
const EXAMPLES: [(&str, &[&str]); 2] = [
    ("dose", &["--chars", "22", "--indent", "1"]),
    ("aftercare", &["--chars", "22", "--indent", "1", "--marks"]),
];

#[test]
fn each_example_has_its_picture() {
    for (name, options) in EXAMPLES {
        let folder = Folder::new();
        let (svg, html) = (folder.file("x.svg"), folder.file("x.html"));
        let leaflet = format!("examples/{name}.html");
        let pictures = ["--svg", svg.to_str().unwrap(), "--html", html.to_str().unwrap()];
        run(&[&["compose", &leaflet], options, &pictures].concat()).accepted();
        let drawn = String::from_utf8(folder.read("x.svg")).unwrap();
        let kept = fs::read_to_string(root().join(format!("docs/pictures/{name}.svg"))).unwrap_or_default();
        assert_eq!(drawn, kept, "docs/pictures/{name}.svg is another picture than the program's");

        let page = String::from_utf8(folder.read("x.html")).unwrap();
        assert!(page.starts_with("<!DOCTYPE html>\n<html lang=\"ja\">") && page.contains(&drawn), "{page}");
        assert_eq!(folder.names(), ["x.html", "x.svg"]);
    }
}

/// Each command of the README after which it shows what the program says.
#[test]
fn the_readme_shows_what_the_program_says() {
    let readme = fs::read_to_string(root().join("README.md")).expect("the README");
    let mut count = 0;
    for shown in readme.split("```sh\n").skip(1) {
        let Some((commands, said)) = shown.split_once("```\n\n```text\n") else { continue };
        let Some((said, _)) = said.split_once("```\n") else { continue };
        if commands.contains("```") {
            continue;
        }
        let command = commands.lines().last().expect("a command");
        let arguments = command.strip_prefix("host/target/release/gelumbrio ").expect("this program");
        let run = run(&arguments.split(' ').collect::<Vec<_>>());
        assert_eq!(run.out + &run.err, said, "{command}");
        count += 1;
    }
    assert_eq!(count, 2);
}

/// What a leaflet looks like at a measure of so many characters, with more options.
fn lines(leaflet: &str, options: &[&str]) -> String {
    Folder::new().run_with(&[&["compose", "-"], options].concat(), leaflet).accepted()
}

#[test]
fn solid_text_is_solid_and_brackets_hang_in_the_margin() {
    assert_eq!(lines("頭痛薬を飲む", &["--chars", "4"]), " 頭痛薬を\n 飲む\n");
    assert_eq!(lines("「水」で。", &["--chars", "5"]), "「水」で。\n");
    assert_eq!(lines("朝・夕", &["--chars", "5", "--indent", "2"]), "     朝・夕\n");
    // A quarter of a character on each side of a number is half a column: both are before it.
    assert_eq!(lines("約1錠", &["--chars", "9"]), " 約 1錠\n");
    assert_eq!(lines("", &["--chars", "9"]), "");
}

#[test]
fn ruby_stands_over_its_base_and_above_other_ruby() {
    let ruby = "<ruby>薬<rt>くすり</rt></ruby>";
    assert_eq!(lines(ruby, &["--chars", "9"]), " くすり\n  薬\n");
    let two = "は<ruby>頓服<rt>とんぷく</rt></ruby><ruby>薬<rt>やく</rt></ruby>を";
    assert_eq!(lines(two, &["--chars", "9"]), "       やく\n   とんぷく\n は頓服薬を\n");
    let apart = "<ruby>朝<rt>あさ</rt></ruby>と夜<ruby>薬<rt>やく</rt></ruby>";
    assert_eq!(lines(apart, &["--chars", "9"]), " あさ  やく\n 朝と夜薬\n");
}

#[test]
fn measure_and_indent_are_in_characters_or_units() {
    let text = "頭痛薬を一日三回";
    let at = |options: &[&str]| lines(text, options);
    let plain = at(&["--chars", "5", "--indent", "1"]);
    assert_eq!(plain, "   頭痛薬を\n 一日三回\n");
    for same in [
        &["--measure", "400", "--indent", "80"][..],
        &["--measure=400u", "--indent=1c"],
        &["--chars=5", "--indent=80u"],
        &["--chars", "5", "--indent", "1", "--size", "40"],
        &["--measure", "40", "--indent", "8", "--size", "8"],
    ] {
        assert_eq!(at(same), plain, "{same:?}");
    }
}

#[test]
fn marks_show_numbers_kinds_and_gaps() {
    let marked = lines("約100錠を、毎日", &["--chars", "4", "--marks"]);
    assert_eq!(marked, "  0  約_100錠  flush, record 0\n  1  を、毎日  final, record 5\n");
}

#[test]
fn the_end_of_the_last_line_and_a_byte_order_mark_are_the_files() {
    for leaflet in ["頭痛", "頭痛\n", "頭痛\r\n", "\u{FEFF}頭痛\n"] {
        assert_eq!(lines(leaflet, &["--chars", "9"]), " 頭痛\n", "{leaflet:?}");
    }
}

#[test]
fn json_has_records_places_lines_and_ruby() {
    let json =
        lines("<ruby>食後<rt>しょ\u{1B}\"</rt></ruby>に、", &["--chars", "4", "--indent", "1", "--json"]);
    let expected = r#"{
  "measure": 320,
  "indent": 80,
  "records": [
    {"character": "食", "code_point": 39135, "class": 19, "size": 80, "advance": 80, "group": 1, "ruby_count": 4},
    {"character": "後", "code_point": 24460, "class": 19, "size": 80, "advance": 80, "group": 1, "ruby_count": 4},
    {"character": "に", "code_point": 12395, "class": 15, "size": 80, "advance": 80, "group": 0, "ruby_count": 0},
    {"character": "、", "code_point": 12289, "class": 7, "size": 80, "advance": 40, "group": 0, "ruby_count": 0}
  ],
  "places": [
    {"x": 80, "line": 0},
    {"x": 160, "line": 0},
    {"x": 0, "line": 1},
    {"x": 80, "line": 1}
  ],
  "lines": [
    {"first_record": 0, "end_x": 240, "kind": "short"},
    {"first_record": 2, "end_x": 120, "kind": "final"}
  ],
  "ruby": [
    {"first_record": 0, "records": 2, "x": 80, "text": "しょ\u001b\"", "xs": [80, 120, 160, 200]}
  ]
}
"#;
    assert_eq!(json, expected);
    assert!(lines("", &["--chars", "4", "--json"]).contains("\"records\": [],"));
}

/// The picture of a leaflet.
fn svg(leaflet: &str, options: &[&str]) -> String {
    let folder = Folder::new();
    let arguments = [&["compose", "-", "--svg", "x.svg"], options].concat();
    folder.run_with(&arguments, leaflet).accepted();
    String::from_utf8(folder.read("x.svg")).unwrap()
}

/// The elements of characters in a picture, without the font size.
fn texts(svg: &str) -> Vec<&str> {
    let elements = svg.lines().filter(|line| line.starts_with("<text"));
    elements.map(|line| line.split_once(" x=").expect("an x").1).collect()
}

#[test]
fn every_character_is_at_its_x_and_shapes_are_moved() {
    let drawn = svg("朝「水」・1mW〜", &["--chars", "20"]);
    assert_eq!(
        texts(&drawn),
        [
            "\"0 120 160 240 300 360\" dx=\"0 -40 0 0 -20 20\">朝「水」・<tspan class=\"middle\">1</tspan></text>",
            "\"400\" textLength=\"40\" lengthAdjust=\"spacingAndGlyphs\">m</text>",
            "\"440\" textLength=\"40\" lengthAdjust=\"spacingAndGlyphs\">W</text>",
            "\"480\" textLength=\"40\" lengthAdjust=\"spacingAndGlyphs\">〜</text>",
        ]
    );
    // A circled number is as small as its record is narrow, and stays in the middle of the line.
    assert!(svg("①", &["--chars", "20"]).contains("<text font-size=\"40\" x=\"0\" y=\"-15\">①</text>"));
    // One past U+FFFF is an element of its own.
    assert_eq!(texts(&svg("朝昼夜", &["--chars", "20"])), ["\"0 80 160\">朝昼夜</text>"]);
    assert_eq!(
        texts(&svg("朝𠮟夜", &["--chars", "20"])),
        ["\"0\">朝</text>", "\"80\">𠮟</text>", "\"160\">夜</text>"]
    );
}

#[test]
fn ruby_is_at_ruby_places() {
    let drawn = svg("<ruby>頓服<rt>とぷく</rt></ruby><ruby>薬<rt>くす\u{0}</rt></ruby>", &["--chars", "20"]);
    assert_eq!(
        texts(&drawn),
        [
            "\"0 60 120\" y=\"-74\">とぷく</text>",
            "\"160 200 240\" y=\"-74\" dx=\"0 0 20\">くす<tspan class=\"middle\">\u{FFFD}</tspan></text>",
            "\"0 80 180\">頓服薬</text>",
        ]
    );
}

#[test]
fn pictures_name_fonts_and_have_the_edges_of_the_measure() {
    let drawn = svg("朝", &["--chars", "20", "--indent", "3"]);
    assert!(drawn.contains("d=\"M0 80V200M1600 80V200\""), "{drawn}");
    assert!(drawn.contains("'Noto Serif CJK JP'") && drawn.contains("serif;") && !drawn.contains("url("));
    assert!(drawn.contains("<title>standard input</title>\n<desc>朝</desc>"));
    assert!(!drawn.contains("class=\"gap\""));
    let marked = svg("朝、昼", &["--chars", "20", "--marks"]);
    assert!(
        marked.contains("<rect class=\"gap\" x=\"120\" y=\"-70\" width=\"40\" height=\"80\"/>"),
        "{marked}"
    );
    assert!(marked.contains(">40</text>") && marked.contains(">final</text>"), "{marked}");
}
