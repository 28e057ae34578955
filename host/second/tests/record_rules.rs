//! Answers 8 and 9 with their places (document 01, "Records and groups").

mod common;

use common::{compose, edit, flat, grouped, k, listed, one_slot, own, plain, record, refused, Words};

const BIG: u32 = u32::MAX;

/// Whether a record keeps its own rules: otherwise it is named by answer 8. One that keeps them may yet be named by
/// answer 12, which comes later.
fn keeps_rules(record: Words) -> bool {
    match compose(&[k(), record, k()], 1_000_000, 0) {
        (0, 1) | (12, 1) => true,
        (8, 1) => false,
        other => panic!("{other:?} for {record:?}"),
    }
}

#[test]
fn number_8_code_point_class_and_size() {
    for (code_point, kept) in [
        (0, true),
        (0xD7FF, true),
        (0xD800, false),
        (0xDFFF, false),
        (0xE000, true),
        (0x10_FFFF, true),
        (0x11_0000, false),
        (BIG, false),
    ] {
        assert_eq!(keeps_rules([code_point, 19, 80, 80, 0, 0]), kept, "{code_point:#X}");
    }
    for class in (0..40).chain([255, 256 + 19, BIG]) {
        let listed = matches!(class, 1..=16 | 19 | 27);
        assert_eq!(keeps_rules(plain(class, 80)), listed, "class {class}");
    }
    for (size, kept) in [(0, false), (4, false), (8, true), (12, false), (4_000, true), (4_008, false)] {
        assert_eq!(keeps_rules(plain(19, size)), kept, "size {size}");
    }
}

#[test]
fn number_8_advance() {
    for class in (1..=16).chain([19, 27]) {
        let kept = match class {
            1 | 2 | 5 | 6 | 7 => 40..=40,
            3 => 1..=80,
            27 => 1..=160,
            _ => 80..=80,
        };
        for advance in [0, 1, 2, 39, 40, 41, 79, 80, 81, 159, 160, 161, BIG] {
            let expected = kept.contains(&advance);
            assert_eq!(keeps_rules(record(class, 80, advance)), expected, "{class} {advance}");
        }
    }
}

#[test]
fn number_8_group_and_ruby() {
    for (class, group, ruby_count, kept) in [
        (19, 0, 1, false),
        (19, 1, 0, false),
        (19, 1, 1, true),
        (15, 1, 64, true),
        (16, 65_535, 64, true),
        (19, 1, 65, false),
        (19, 65_536, 1, false),
        (19, BIG, 1, false),
        (19, 1, BIG, false),
        (14, 1, 1, false),
        (27, 1, 1, false),
    ] {
        let record = [listed(class), class, 80, 80, group, ruby_count];
        assert_eq!(keeps_rules(record), kept, "{class} {group} {ruby_count}");
    }
}

#[test]
fn number_8_names_the_first() {
    assert_eq!(compose(&[k(), [0; 6], [0; 6]], 800, 0), (8, 1));
    let mut sheet = one_slot(800, 0);
    assert_eq!(edit(&mut sheet, own(0, 0, &flat(&[k(); 3]))), (0, 1));
    assert_eq!(refused(&mut sheet, own(2, 1, &flat(&[k(), [0; 6]]))), (8, 3));
}

#[test]
fn number_9() {
    let group = grouped(16, 3, 2);
    assert_eq!(compose(&[group; 16], 800, 0), (0, 1));
    assert_eq!(compose(&[group; 17], 800, 0), (9, 16));
    assert_eq!(compose(&[group; 40], 800, 0), (9, 16));
    assert_eq!(compose(&[k(), group, grouped(8, 3, 2)], 800, 0), (9, 2));
    assert_eq!(compose(&[k(), group, grouped(16, 3, 1)], 800, 0), (9, 2));
    // Another number, or the same number further on, is another group.
    assert_eq!(compose(&[group, grouped(8, 4, 1)], 800, 0), (0, 1));
    assert_eq!(compose(&[group, k(), grouped(8, 3, 1)], 800, 0), (0, 1));
    assert_eq!(compose(&[[group; 16].as_slice(), &[k()], &[group; 16]].concat(), 800, 0), (0, 1));
}

#[test]
fn number_9_where_an_edit_joins_two_groups() {
    let mut sheet = one_slot(800, 0);
    let text = [grouped(16, 1, 2), k(), grouped(8, 1, 2)];
    assert_eq!(edit(&mut sheet, own(0, 0, &flat(&text))), (0, 1));
    assert_eq!(refused(&mut sheet, own(1, 1, &[])), (9, 1));
}
