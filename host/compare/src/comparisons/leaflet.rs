//! Import (document 02, request 05): all short texts over the tags and a few characters, every code point, bytes
//! about the ends of the ranges of well-formed sequences, leaflets with every byte changed, texts about the limits
//! of records and groups, and random texts.

use second::class_of;

use crate::comparisons::lists::code_points;
use crate::failure::Failure;
use crate::generate::{annex_a, plain, Style, EDGES};
use crate::layout::CLASSES;
use crate::one_slot::OneSlot;
use crate::program::Program;
use crate::random::{seeds, Random};
use crate::scope::Scope;
use crate::tally::Tally;
use crate::texts::{self, AFTERCARE, BYTES, DOSE, TAGS};

const TEST: &str = "leaflet";
const SIZE: u32 = 8;
/// Ten characters, or a ruby of twenty.
const MEASURE: u32 = 10 * SIZE;
/// All records of a slot fit on one line.
const WIDE_MEASURE: u32 = 10_000;

/// Compares imports.
pub fn compare(program: &dyn Program, scope: Scope) -> Result<Tally, Failure> {
    let mut slot = OneSlot::new(TEST, None, program);
    slot.set_up(MEASURE, 0)?;
    slot.replace(&plain(19, SIZE).repeat(12))?;
    short(&mut slot, scope)?;
    slot.set_up(WIDE_MEASURE, 0)?;
    slot.replace(&plain(19, SIZE).repeat(12))?;
    sequences(&mut slot, scope)?;
    characters(&mut slot, scope)?;
    changed(&mut slot, scope)?;
    counts(&mut slot)?;
    bases(&mut slot)?;
    long(&mut slot, scope)?;
    sizes(&mut slot)?;
    let mut tally = slot.tally;
    for seed in seeds(TEST, scope, 40_000, 1_500) {
        tally.add(&random(program, seed)?);
    }
    Ok(tally)
}

/// All short texts: of the tags, a character of a list, one that may only stand in rt and rp, and a byte that is none;
/// and, not so long, with what may stand nowhere besides.
fn short(slot: &mut OneSlot, scope: Scope) -> Result<(), Failure> {
    let others: [&[u8]; 3] = ["あ".as_bytes(), b" ", b"\x80"];
    let elements: Vec<&[u8]> = TAGS.iter().map(|tag| tag.as_bytes()).chain(others).collect();
    all(slot, &elements, scope.choose(7, 5), &mut Vec::new())?;
    let nowhere: [&[u8]; 5] = [b"<", b">", b"&", b"<RT>", b"\xE3\x81"];
    all(slot, &[&elements[..], &nowhere].concat(), scope.choose(5, 3), &mut Vec::new())
}

/// Imports a text, and then all texts that go on from it by up to so many elements.
fn all(slot: &mut OneSlot, elements: &[&[u8]], more: u32, text: &mut Vec<u8>) -> Result<(), Failure> {
    slot.import(SIZE, text)?;
    if more == 0 {
        return Ok(());
    }
    for element in elements {
        let length = text.len();
        text.extend_from_slice(element);
        all(slot, elements, more - 1, text)?;
        text.truncate(length);
    }
    Ok(())
}

/// The characters as the rt of a ruby element.
fn in_rt(characters: &[u8]) -> Vec<u8> {
    [b"<ruby>\xE6\xBC\xA2<rt>", characters, b"</rt></ruby>"].concat()
}

/// All sequences of three and four bytes that are about the ends of the ranges, in rt, where any character may
/// stand; in brief with few bytes at the end of four.
fn sequences(slot: &mut OneSlot, scope: Scope) -> Result<(), Failure> {
    for a in BYTES {
        for b in BYTES {
            for c in BYTES {
                slot.import(SIZE, &in_rt(&[a, b, c]))?;
                for &d in scope.choose(&BYTES[..], &[0x41, 0x80]) {
                    slot.import(SIZE, &in_rt(&[a, b, c, d]))?;
                }
            }
        }
    }
    // At the end of the text, where what is well-formed so far is cut short.
    for a in 0..=0xFF {
        slot.import(SIZE, &[a])?;
        for b in BYTES {
            slot.import(SIZE, &[b'A', a, b])?;
        }
    }
    Ok(())
}

/// Each code point outside ruby elements; most that have a class, and some others, as a base and in rt; and all, many
/// at once, in rt.
fn characters(slot: &mut OneSlot, scope: Scope) -> Result<(), Failure> {
    let characters: Vec<char> = code_points(scope).filter_map(char::from_u32).collect();
    for &character in &characters {
        slot.import(SIZE, character.encode_utf8(&mut [0; 4]).as_bytes())?;
    }
    for character in characters.iter().filter(|character| scope == Scope::Brief || is_odd(character)) {
        slot.import(SIZE, format!("<ruby>{character}<rt>か</rt></ruby>").as_bytes())?;
        slot.import(SIZE, format!("<ruby>漢<rt>か{character}</rt></ruby>").as_bytes())?;
    }
    for characters in characters.chunks(60) {
        let inner: String = characters.iter().filter(|character| !"<>&".contains(**character)).collect();
        slot.import(SIZE, &in_rt(inner.as_bytes()))?;
    }
    // As many as a slot takes, of each list.
    for class in CLASSES {
        let listed = annex_a(class).iter().copied().filter_map(char::from_u32);
        let listed: Vec<char> = listed.filter(|character| !"<>&".contains(*character)).collect();
        for characters in listed.chunks(256) {
            let text: String = characters.iter().collect();
            slot.import(SIZE, text.as_bytes())?;
            let whole = slot.records().len() == 6 * characters.len();
            assert!(whole, "a text that both programs refuse shows nothing");
        }
    }
    Ok(())
}

/// Whether a character is none of the many ideographs and none of the many that no list has.
fn is_odd(character: &char) -> bool {
    let code_point = u32::from(*character);
    code_point < 0x3400 || class_of(code_point).is_some_and(|class| class != 19) || code_point % 251 == 0
}

/// Leaflets cut in two before each byte, and with it left out, made any other, or a tag put before it.
fn changed(slot: &mut OneSlot, scope: Scope) -> Result<(), Failure> {
    let every_byte: Vec<u8> = (0..=0xFF).collect();
    for leaflet in [DOSE, AFTERCARE] {
        let leaflet = leaflet.as_bytes();
        for at in 0..leaflet.len() {
            let (before, after) = leaflet.split_at(at);
            slot.import(SIZE, before)?;
            slot.import(SIZE, after)?;
            slot.import(SIZE, &[before, &after[1..]].concat())?;
            for &byte in scope.choose(&every_byte[..], &BYTES) {
                slot.import(SIZE, &[before, &[byte], &after[1..]].concat())?;
            }
            for element in TAGS {
                slot.import(SIZE, &[before, element.as_bytes(), after].concat())?;
            }
        }
        slot.import(SIZE, leaflet)?;
    }
    Ok(())
}

/// About 256 records, in ruby elements and outside them; groups of about 16; about 64 ruby characters, of which each
/// takes up to four bytes.
fn counts(slot: &mut OneSlot) -> Result<(), Failure> {
    for count in (0..=2).chain(254..=258).chain([511, 512, 513, 1_000]) {
        slot.import(SIZE, "あ".repeat(count).as_bytes())?;
        slot.import(SIZE, "(".repeat(count).as_bytes())?;
        slot.import(SIZE, "<ruby>漢<rt>か</rt></ruby>".repeat(count).as_bytes())?;
        let base = "漢".repeat(16);
        let groups = format!("<ruby>{base}<rt>か</rt></ruby>").repeat(count / 16);
        slot.import(SIZE, (groups + &"、".repeat(count % 16)).as_bytes())?;
    }
    for base in (1..=2).chain(14..=18).chain([32, 33, 255, 256, 257]) {
        for over in (1..=2).chain(62..=66).chain([127, 128, 255, 256, 257, 320, 65_536 + 3]) {
            for character in ["a", "é", "か", "😀"] {
                let (base, over) = ("漢".repeat(base), character.repeat(over));
                slot.import(SIZE, format!("あ<ruby>{base}<rt>{over}</rt></ruby>").as_bytes())?;
            }
            let (base, over) = ("漢".repeat(base), "か".repeat(over));
            let with_rp = format!("<ruby>{base}<rp>{over}</rp><rt>{over}</rt><rp></rp></ruby>");
            slot.import(SIZE, with_rp.as_bytes())?;
        }
    }
    Ok(())
}

/// Bases of every pair of classes, of which edit refuses most.
fn bases(slot: &mut OneSlot) -> Result<(), Failure> {
    let usual = |class: u32| second::lists::usual(class).expect("one of the eighteen classes");
    for left in CLASSES {
        for right in CLASSES {
            let (left, right) = (usual(left), usual(right));
            slot.import(SIZE, format!("あ<ruby>{left}{right}<rt>か</rt></ruby>").as_bytes())?;
            slot.import(SIZE, format!("{left}<ruby>漢<rt>{left}</rt></ruby>{right}").as_bytes())?;
        }
    }
    Ok(())
}

/// Texts whose lengths and places take more than 16 bits, and more ruby elements than there are group numbers.
fn long(slot: &mut OneSlot, scope: Scope) -> Result<(), Failure> {
    let many = scope.choose(200_000, 25_000);
    let kana = "あ".repeat(many);
    let ruby = "<ruby>漢<rt>かん</rt></ruby>".repeat(scope.choose(65_537, 3_000));
    for text in [&kana, &ruby] {
        for end in ["", "い", "<", "（", "<ruby>", "<ruby>漢<rt>", "</ruby>", "<ruby>漢<rt>か</rt></ruby>"]
        {
            slot.import(SIZE, format!("{text}{end}").as_bytes())?;
        }
        slot.import(SIZE, &text.as_bytes()[..text.len() - 1])?;
    }
    slot.import(SIZE, &in_rt(kana.as_bytes()))?;
    slot.import(SIZE, format!("<ruby>{kana}<rt>か</rt></ruby>").as_bytes())?;
    slot.import(SIZE, format!("<ruby>漢<rt>{kana}").as_bytes())?;
    slot.import(SIZE, format!("<ruby>漢<rp>{kana}</rp><rt>か</rt><rp>{kana}</rp></ruby>").as_bytes())?;
    Ok(())
}

/// Every size about a limit, good or bad, of a text of every class.
fn sizes(slot: &mut OneSlot) -> Result<(), Failure> {
    let usual: String = CLASSES.into_iter().filter_map(second::lists::usual).collect();
    // Of 3 and others that no list of 27 has.
    let text = format!("{usual}〜゠々<ruby>漢<rt>か</rt></ruby>");
    for size in
        EDGES.into_iter().chain([4, 12, 24, 80, 84, 88, 3_992, 3_996, 4_004, 4_008, 4_096, u32::MAX - 7])
    {
        for text in ["", "あ", "(", "〜", "、", DOSE, AFTERCARE, text.as_str()] {
            slot.import(size, text.as_bytes())?;
        }
        slot.import(size, "あ".repeat(257).as_bytes())?;
        slot.import(size, b"<")?;
    }
    Ok(())
}

/// Random texts, in one slot and setting.
fn random(program: &dyn Program, seed: u64) -> Result<Tally, Failure> {
    let mut slot = OneSlot::new(TEST, Some(seed), program);
    let mut random = Random::new(seed);
    let style = Style::random(&mut random);
    let measure = style.measure(&mut random);
    slot.set_up(measure, style.indent(&mut random, measure))?;
    for _ in 0..4 {
        let size = style.import_size(&mut random);
        slot.import(size, &texts::any(&mut random))?;
    }
    Ok(slot.tally)
}
