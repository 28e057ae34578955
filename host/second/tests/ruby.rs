//! Ruby place: its limits (document 01, "Refusal numbers"). Both rows of a group: what holds of every offset (document
//! 02, request 06).

use second::{ruby_place, slot_words, RubyPlace};

const BIG: u32 = u32::MAX;

fn number(base_advance: u32, ruby_count: u32, size: u32, k: u32) -> u32 {
    let place = ruby_place(base_advance, ruby_count, size, k);
    assert!(place.number == 0 || place == RubyPlace { number: 8, offset: 0 });
    place.number
}

#[test]
fn limits() {
    assert_eq!(number(80, 1, 80, 0), 0);
    for (base_advance, expected) in [(0, 8), (1, 0), (64_000, 0), (64_001, 8), (BIG, 8)] {
        assert_eq!(number(base_advance, 1, 80, 0), expected, "base {base_advance}");
    }
    for (ruby_count, expected) in [(0, 8), (1, 0), (64, 0), (65, 8), (BIG, 8)] {
        assert_eq!(number(80, ruby_count, 80, 0), expected, "count {ruby_count}");
    }
    for (size, expected) in [(0, 8), (7, 8), (8, 0), (12, 8), (4_000, 0), (4_008, 8), (BIG, 8)] {
        assert_eq!(number(80, 1, size, 0), expected, "size {size}");
    }
    for (k, expected) in [(2, 0), (3, 8), (64, 8), (BIG, 8)] {
        assert_eq!(number(80, 3, 80, k), expected, "k {k}");
    }
    assert_eq!(number(BIG, BIG, BIG, BIG), 8);
}

/// Ruby characters over base advances of all kinds, and over those at and beside which the rows are equal.
#[test]
fn every_row_of_ruby() {
    for base_advance in (1..64_000).step_by(397) {
        for ruby_count in 1..=64 {
            let size = 8 * (1 + base_advance % 500);
            row_of_ruby(base_advance, ruby_count, size);
            let total = ruby_count * size / 2;
            for near in [total - 1, total, total + 1] {
                row_of_ruby(near.min(64_000), ruby_count, size);
            }
        }
    }
}

fn row_of_ruby(base_advance: u32, ruby_count: u32, size: u32) {
    let offsets: Vec<u32> =
        (0..ruby_count).map(|k| ruby_place(base_advance, ruby_count, size, k).offset).collect();
    check_row(&offsets, size / 2, base_advance);
}

/// Groups of every record and ruby count, each alone in its slot.
#[test]
fn every_row_of_records() {
    for size in (8..=4_000).step_by(264).chain([80, 4_000]) {
        for count in 1..=16 {
            for ruby_count in 1..=64 {
                let record = [0x6F22, 19, size, size, 1, ruby_count];
                let slot = slot_words(7, 1_000_000, 0, &record.repeat(count)).expect("a group that fits");
                let xs: Vec<u32> = slot[1_544..].iter().copied().step_by(2).take(count).collect();
                check_row(&xs, size, ruby_count * size / 2);
                // The advance is the longer row's.
                assert_eq!(slot[2_057], (count as u32 * size).max(ruby_count * size / 2));
            }
        }
    }
}

/// What holds of the offsets of a row whose items are this wide, beside another row of this width.
fn check_row(offsets: &[u32], item: u32, other: u32) {
    let told = format!("{offsets:?}, each {item} wide, beside {other}");
    let n = offsets.len() as u32;
    let solid: Vec<u32> = (0..n).map(|k| k * item).collect();
    let last_end = offsets[offsets.len() - 1] + item;
    match other.saturating_sub(n * item) {
        0 => assert_eq!(offsets, solid, "{told}"),
        _ if n == 1 => {
            let (before, after) = (offsets[0], other - last_end);
            assert!(after - before <= 1, "{told}");
        }
        d => {
            assert_eq!((offsets[0], last_end), (0, other), "{told}");
            for (k, (offset, solid)) in (0..).zip(offsets.iter().zip(&solid)) {
                check_moved(offset - solid, [d, k, n - 1].map(u64::from), &told);
            }
            // No neighbours overlap, and no gap is wider than another by more than 1.
            let gaps: Vec<u32> = offsets.windows(2).map(|pair| pair[1] - pair[0] - item).collect();
            let (least, most) = (gaps.iter().min(), gaps.iter().max());
            assert!(least.zip(most).is_some_and(|(least, most)| most - least <= 1), "{told}");
        }
    }
}

/// The largest whole number that is at most Dk/(n-1) is met, without a division.
fn check_moved(moved: u32, [d, k, gaps]: [u64; 3], told: &str) {
    let moved = u64::from(moved);
    assert!(moved * gaps <= d * k && d * k < (moved + 1) * gaps, "{told}");
}
