//! A paragraph as a picture in SVG, in the sheet's own units.
//!
//! The x of every character is the one that the sheet has; where its shape must stand elsewhere, a dx says how far.
//! A line is one element, so that a text can be found and copied, but for characters that are made narrower or
//! smaller.

use std::fmt::Write;

use gelumbrio::Line;

use crate::characters::printable;
use crate::glyph::{Drawn, Shape};
use crate::paragraph::{Group, Paragraph};
use crate::scratch::USUAL_SIZE;

/// Serif faces for Japanese, those of free systems first.
const FONTS: &str = "'Noto Serif CJK JP', 'Noto Serif JP', 'Source Han Serif JP', 'Hiragino Mincho ProN', \
                     'Yu Mincho', YuMincho, 'BIZ UDMincho', IPAexMincho, 'MS Mincho', serif";
/// How large a character is on a screen, in pixels.
const PIXELS: f64 = 24.0;

/// Where things stand in the picture, in units.
struct Layout {
    /// The largest character's size.
    em: u32,
    left: u32,
    right: u32,
    top: u32,
    pitch: u32,
}

impl Layout {
    fn new(paragraph: &Paragraph, marks: bool) -> Layout {
        let em = paragraph.sizes().map_or(USUAL_SIZE, |(_, largest)| largest);
        let (left, right) = if marks { (2 * em, 5 * em / 2) } else { (em, em) };
        // Over the first line there is room for its ruby, as there is between lines.
        Layout { em, left, right, top: em + em / 2, pitch: em * 7 / 4 }
    }

    /// Where the squares of a line's characters start, from above.
    fn line_top(&self, number: usize) -> u64 {
        u64::from(self.top) + number as u64 * u64::from(self.pitch)
    }

    /// Where the characters of a line stand on.
    fn baseline(&self, number: usize) -> u64 {
        self.line_top(number) + u64::from(ascent(self.em))
    }
}

/// How far the square of a character reaches above what it stands on: in fonts 0.88 of its size.
fn ascent(size: u32) -> u32 {
    size * 22 / 25
}

/// How far it reaches below.
fn descent(size: u32) -> u32 {
    size * 3 / 25
}

/// How far above what it stands on its middle is.
fn middle(size: u32) -> u32 {
    (ascent(size) - descent(size)) / 2
}

/// The picture.
pub fn svg(paragraph: &Paragraph, title: &str, marks: bool) -> String {
    let layout = Layout::new(paragraph, marks);
    let mut svg = String::new();
    let mut put = |text: String| writeln!(svg, "{text}").expect("a string takes it");
    page(paragraph, title, marks, &layout, &mut put);
    for (number, line) in paragraph.lines.iter().enumerate() {
        put(format!("<g transform=\"translate(0 {})\">", layout.baseline(number)));
        if marks {
            line_marks(paragraph, line, number, &layout, &mut put);
        }
        for group in paragraph.groups_of(line) {
            ruby(paragraph, group, &mut put);
        }
        characters(paragraph, line, &mut put);
        put("</g>".to_string());
    }
    put("</svg>".to_string());
    svg
}

/// What is there before the lines: the paper, and the edges of the measure.
fn page(paragraph: &Paragraph, title: &str, marks: bool, layout: &Layout, put: &mut impl FnMut(String)) {
    let &Layout { em, left, right, top, .. } = layout;
    let measure = paragraph.measure;
    let width = u64::from(left) + u64::from(measure) + u64::from(right);
    let bottom = layout.line_top(paragraph.lines.len().saturating_sub(1)) + u64::from(em);
    let height = bottom + u64::from(em);
    let pixels = |units: u64| units as f64 * PIXELS / f64::from(em);
    put(format!(
        "<svg xmlns=\"http://www.w3.org/2000/svg\" xml:lang=\"ja\" lang=\"ja\" xml:space=\"preserve\" \
         width=\"{:.0}\" height=\"{:.0}\" viewBox=\"-{left} 0 {width} {height}\">",
        pixels(width),
        pixels(height),
    ));
    put(format!("<title>{}</title>", escaped(title)));
    let text: String = paragraph.records.iter().filter_map(|record| record.character()).collect();
    put(format!("<desc>{}</desc>", escaped(&text)));
    put(style(marks));
    put(format!("<rect class=\"paper\" x=\"-{left}\" y=\"0\" width=\"{width}\" height=\"{height}\"/>"));
    let top = top - em / 2;
    put(format!("<path class=\"edge\" d=\"M0 {top}V{bottom}M{measure} {top}V{bottom}\"/>"));
}

fn style(marks: bool) -> String {
    let marked = ".gap{fill:#f6c344;fill-opacity:.45}.amount,.number,.kind{font-family:sans-serif;fill:#777}\
                  .amount,.number{text-anchor:middle}";
    format!(
        "<style>text{{font-family:{FONTS};fill:#000;font-kerning:none}}.middle{{text-anchor:middle}}\
         .paper{{fill:#fff}}.edge{{stroke:#6aa9d8;stroke-width:.7;vector-effect:non-scaling-stroke}}\
         .unknown{{fill:none;stroke:#999}}{}</style>",
        if marks { marked } else { "" }
    )
}

/// A line's number and kind, and its gaps.
fn line_marks(
    paragraph: &Paragraph,
    line: &Line,
    number: usize,
    layout: &Layout,
    put: &mut impl FnMut(String),
) {
    let (em, small) = (layout.em, layout.em / 4);
    let above = ascent(em);
    put(format!("<text class=\"number\" font-size=\"{}\" x=\"-{em}\" y=\"0\">{number}</text>", em / 2));
    let (x, name) = (u64::from(paragraph.measure) + u64::from(em / 2), line.kind);
    put(format!("<text class=\"kind\" font-size=\"{}\" x=\"{x}\" y=\"0\">{name}</text>", em / 2));
    for units in paragraph.units_of(line).windows(2) {
        let (start, end) = (units[0].end, units[1].x);
        if start < end {
            let (gap, middle) = (end - start, start + (end - start) / 2);
            put(format!(
                "<rect class=\"gap\" x=\"{start}\" y=\"-{above}\" width=\"{gap}\" height=\"{em}\"/>"
            ));
            let y = descent(em) + small;
            put(format!(
                "<text class=\"amount\" font-size=\"{small}\" x=\"{middle}\" y=\"{y}\">{gap}</text>"
            ));
        }
    }
}

/// The characters of a line.
fn characters(paragraph: &Paragraph, line: &Line, put: &mut impl FnMut(String)) {
    let records = &paragraph.records[paragraph.records_of(line)];
    let shapes: Vec<Shape> =
        records.iter().zip(&line.xs).map(|(record, &x)| Shape::of_record(record, x)).collect();
    elements(&shapes, 0, put);
}

/// A group's ruby, directly above the squares of its base.
fn ruby(paragraph: &Paragraph, group: &Group, put: &mut impl FnMut(String)) {
    let size = paragraph.records[group.first].size;
    let half = size / 2;
    let up = ascent(size) + descent(half);
    let Some(ruby) = &group.ruby else {
        let (y, radius, thin) = (up + half / 3, half / 4, f64::from(size) / 40.0);
        for x in &group.ruby_xs {
            let x = x + half / 2;
            put(format!(
                "<circle class=\"unknown\" stroke-width=\"{thin}\" cx=\"{x}\" cy=\"-{y}\" r=\"{radius}\"/>"
            ));
        }
        return;
    };
    let shapes: Vec<Shape> =
        ruby.iter().zip(&group.ruby_xs).map(|(&character, &x)| Shape::of_ruby(character, half, x)).collect();
    elements(&shapes, up, put);
}

/// Characters, each at its x, so far above the line that they stand on.
fn elements(shapes: &[Shape], up: u32, put: &mut impl FnMut(String)) {
    let is_one = |left: &Shape, right: &Shape| left.joins() && right.joins() && left.size == right.size;
    for run in shapes.chunk_by(is_one) {
        put(element(run, up));
    }
}

/// One element of characters, which are drawn as they are or are a single one.
fn element(shapes: &[Shape], up: u32) -> String {
    let Shape { size, advance, drawn, .. } = shapes[0];
    let xs: Vec<String> = shapes.iter().map(|shape| shape.x.to_string()).collect();
    let (size, up, more) = match drawn {
        Drawn::Condensed => {
            (size, up, format!(" textLength=\"{advance}\" lengthAdjust=\"spacingAndGlyphs\""))
        }
        // The middle of its square stays where it is.
        Drawn::Smaller => (advance, up + (middle(size) - middle(advance)), String::new()),
        Drawn::FromStart { .. } | Drawn::InMiddle => (size, up, shifts(shapes)),
    };
    let y = if up == 0 { String::new() } else { format!(" y=\"-{up}\"") };
    format!("<text font-size=\"{size}\" x=\"{}\"{y}{more}>{}</text>", xs.join(" "), content(shapes))
}

/// How far from its x each character's start is, or its middle, where that is not 0 for all.
fn shifts(shapes: &[Shape]) -> String {
    let shift = |shape: &Shape| match shape.drawn {
        Drawn::FromStart { before } => -i64::from(before),
        Drawn::InMiddle => i64::from(shape.advance / 2),
        Drawn::Condensed | Drawn::Smaller => 0,
    };
    match shapes.iter().all(|shape| shift(shape) == 0) {
        true => String::new(),
        false => {
            let shifts: Vec<String> = shapes.iter().map(|shape| shift(shape).to_string()).collect();
            format!(" dx=\"{}\"", shifts.join(" "))
        }
    }
}

/// The characters of an element. Those whose middle is placed are in an element of their own inside it.
fn content(shapes: &[Shape]) -> String {
    let is_middle = |shape: &Shape| shape.drawn == Drawn::InMiddle;
    let runs = shapes.chunk_by(|left, right| is_middle(left) == is_middle(right));
    let told = runs.map(|run| {
        let text = escaped(&run.iter().map(|shape| shape.character).collect::<String>());
        match is_middle(&run[0]) {
            true => format!("<tspan class=\"middle\">{text}</tspan>"),
            false => text,
        }
    });
    told.collect()
}

/// A text in XML and HTML.
pub fn escaped(text: &str) -> String {
    let mut escaped = String::new();
    for character in text.chars().map(printable) {
        match character {
            '&' => escaped.push_str("&amp;"),
            '<' => escaped.push_str("&lt;"),
            '>' => escaped.push_str("&gt;"),
            '"' => escaped.push_str("&quot;"),
            character => escaped.push(character),
        }
    }
    escaped
}

/// A page with the picture in it, which prints as it looks.
pub fn html(paragraph: &Paragraph, title: &str, marks: bool) -> String {
    format!(
        "<!DOCTYPE html>\n<html lang=\"ja\">\n<head>\n<meta charset=\"utf-8\">\n\
         <meta name=\"viewport\" content=\"width=device-width\">\n<title>{}</title>\n\
         <style>body{{margin:0;background:#fff}}svg{{display:block;margin:0 auto;max-width:100%;height:auto}}\
         </style>\n\
         </head>\n<body>\n{}</body>\n</html>\n",
        escaped(title),
        svg(paragraph, title, marks)
    )
}
