//! Leaflets to import, and texts that are none (document 02, request 05).

use crate::random::Random;

/// A dose note.
pub const DOSE: &str =
    "1日3回、毎食後に<ruby>頓服<rp>(</rp><rt>とんぷく</rt><rp>)</rp></ruby>を2錠。38℃を超えたら、もう1錠。";
/// What to do after a tooth is drawn.
pub const AFTERCARE: &str =
    "「抜歯」のあと、<ruby>出血<rt>しゅっ けつ</rt></ruby><ruby>痛<rt>いた</rt></ruby>みが30分つづくときは…(03‐1234)へ。";

/// The six tags.
pub const TAGS: [&str; 6] = ["<ruby>", "</ruby>", "<rt>", "</rt>", "<rp>", "</rp>"];

/// What leaflets are made of. Some characters are of more than one list.
const PHRASES: [&str; 20] = [
    "1日3回、",
    "毎食後に",
    "1回2錠を",
    "水またはぬるま湯で飲んでください。",
    "(ロキソプロフェン)",
    "アセトアミノフェン500mgを",
    "「カロナール」",
    "10%の消毒液で",
    "38℃を超えたら、",
    "赤み・腫れ・かゆみ",
    "少しずつ徐々に減らし、",
    "ショックが起きたときは…",
    "9:00〜18:00",
    "¥1,200",
    "　",
    "<ruby>頓服<rt>とんぷく</rt></ruby>",
    "<ruby>嘔吐<rp>(</rp><rt>おうと</rt><rp>)</rp></ruby>",
    "<ruby>薬<rp></rp><rt>く\nす り</rt><rp></rp></ruby>",
    "<ruby>ヒト<rt>人</rt></ruby>",
    "<ruby>𠮷<rt>よし😀</rt></ruby>",
];

/// What stands where it may not, or may only in some places.
const ODD: [&[u8]; 24] = [
    b"<",
    b">",
    b"&",
    b"&amp;",
    b"<RT>",
    b"<rt >",
    b"<rt class=a>",
    b"<rb>",
    b"</",
    b"<r",
    b" ",
    b"\n",
    b"\0",
    b"\xEF\xBC\x88", // （, which no list has
    b"\xEF\xBB\xBF",
    b"\x80",
    b"\xC0\xBC",
    b"\xC3",
    b"\xE3\x81",
    b"\xE0\x80\x80",
    b"\xED\xA0\x80",
    b"\xF0\x9F\x98",
    b"\xF4\x90\x80\x80",
    b"\xFF",
];

/// Bytes about the ends of the ranges of Unicode's table of well-formed sequences, and those that a leaflet may
/// not have.
pub const BYTES: [u8; 28] = [
    0x00, 0x26, 0x3C, 0x3E, 0x41, 0x7F, 0x80, 0x8F, 0x90, 0x9F, 0xA0, 0xBF, 0xC0, 0xC1, 0xC2, 0xDF, 0xE0,
    0xE1, 0xEC, 0xED, 0xEE, 0xEF, 0xF0, 0xF1, 0xF3, 0xF4, 0xF5, 0xFF,
];

/// A text of any kind: mostly a leaflet, or one with a few changes.
pub fn any(random: &mut Random) -> Vec<u8> {
    match random.below(10) {
        0..=4 => leaflet(random),
        5..=7 => {
            let mut text = leaflet(random);
            (0..random.between(1, 3)).for_each(|_| change(random, &mut text));
            text
        }
        8 => elements(random),
        _ => bytes(random),
    }
}

/// A leaflet, mostly short, sometimes of about as many characters as a slot takes.
pub fn leaflet(random: &mut Random) -> Vec<u8> {
    let most = random.one_of(&[2, 6, 6, 12, 60]);
    let phrases = random.below(most + 1);
    let mut text = String::new();
    for _ in 0..phrases {
        match random.below(12) {
            0 => text += &ruby(random),
            _ => text += random.one_of(&PHRASES),
        }
    }
    text.into_bytes()
}

/// A ruby element with about as many characters as a group takes, in the base and over it.
fn ruby(random: &mut Random) -> String {
    let base = random.one_of(&["漢", "か", "ア"]).repeat(random.one_of(&[1, 2, 15, 16, 17]));
    let over = random.one_of(&["か", " ", "（"]).repeat(random.one_of(&[1, 3, 63, 64, 65]));
    format!("<ruby>{base}<rt>{over}</rt></ruby>")
}

/// Tags, characters and others in any order.
pub fn elements(random: &mut Random) -> Vec<u8> {
    let mut text = Vec::new();
    for _ in 0..random.below(16) {
        text.extend(match random.below(16) {
            0 => random.one_of(&ODD),
            1..=4 => "漢".as_bytes(),
            _ => random.one_of(&TAGS).as_bytes(),
        });
    }
    text
}

/// Any bytes, often such as stand in texts.
pub fn bytes(random: &mut Random) -> Vec<u8> {
    let any = random.once_in(2);
    (0..random.below(12)).map(|_| if any { random.word() as u8 } else { random.one_of(&BYTES) }).collect()
}

/// Changes a text in one place.
pub fn change(random: &mut Random, text: &mut Vec<u8>) {
    let at = random.below(text.len() as u32 + 1) as usize;
    let length = random.below(8) as usize;
    let end = text.len().min(at + length);
    match random.below(8) {
        0 => text.truncate(at),
        1 => drop(text.drain(at..end)),
        2 => drop(text.splice(at..at, random.one_of(&ODD).iter().copied())),
        3 => drop(text.splice(at..at, random.one_of(&TAGS).bytes())),
        4 => {
            let stretch = text[at..end].to_vec();
            text.splice(at..at, stretch);
        }
        5 => change_tag(random, text),
        _ => match text.get_mut(at) {
            Some(byte) if random.once_in(2) => *byte ^= 1 << random.below(8),
            Some(byte) => *byte = random.one_of(&BYTES),
            None => text.push(random.one_of(&BYTES)),
        },
    }
}

/// Leaves a tag out, or makes it another.
fn change_tag(random: &mut Random, text: &mut Vec<u8>) {
    let starts: Vec<usize> = (0..text.len()).filter(|&at| text[at] == b'<').collect();
    if starts.is_empty() {
        return;
    }
    let start = random.one_of(&starts);
    let length = text[start..].iter().position(|&byte| byte == b'>').map_or(1, |at| at + 1);
    let other = if random.once_in(2) { "" } else { random.one_of(&TAGS) };
    text.splice(start..start + length, other.bytes());
}
