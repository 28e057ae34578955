//! Breaking and adjustment against the words of document 01, "Breaks and adjustment", read as
//! relations over choices of breaks: every choice is tried.

mod common;

use common::{flat, random_records, Random, Words};
use second::breaking::{Breaker, Gap, Setting};
use second::records::{decode_all, first_group_fault};
use second::units::{units, Unit};

const SEEDS: std::ops::Range<u64> = 1..3_001;

/// The smallest width of these units on one line, added up anew.
fn smallest_width(units: &[Unit], x: u32) -> u32 {
    let advances: u32 = units.iter().map(|unit| unit.advance).sum();
    let gaps = units.windows(2).map(|pair| Gap::new(&pair[0], &pair[1]));
    x + advances + gaps.map(|gap| gap.space.smallest()).sum::<u32>()
}

fn may_end(units: &[Unit], end: usize) -> bool {
    end == units.len() || Gap::new(&units[end - 1], &units[end]).permits_break
}

/// The fewest lines of any choice of permitted breaks in which every line fits.
fn fewest_lines(
    units: &[Unit],
    start: usize,
    setting: Setting,
    known: &mut [Option<Option<usize>>],
) -> Option<usize> {
    if start == units.len() {
        return Some(0);
    }
    if let Some(answer) = known[start] {
        return answer;
    }
    let x = if start == 0 { setting.indent } else { 0 };
    let fitting = (start + 1..=units.len())
        .filter(|&end| may_end(units, end))
        .filter(|&end| smallest_width(&units[start..end], x) <= setting.measure);
    let rest = fitting.filter_map(|end| fewest_lines(units, end, setting, known));
    let answer = rest.min().map(|lines| lines + 1);
    known[start] = Some(answer);
    answer
}

/// Each line is the longest run that ends where a line may and fits.
fn check_longest(units: &[Unit], lines: &[std::ops::Range<usize>], setting: Setting) {
    let mut start = 0;
    for line in lines {
        let x = if start == 0 { setting.indent } else { 0 };
        let ends = (start + 1..=units.len()).filter(|&end| may_end(units, end));
        let fitting = ends.filter(|&end| smallest_width(&units[start..end], x) <= setting.measure);
        assert_eq!(fitting.max(), Some(line.end));
        assert_eq!(line.start, start);
        start = line.end;
    }
    assert_eq!(start, units.len());
}

#[test]
fn lines_are_longest_and_ten_means_no_breaking() {
    println!("seeds {SEEDS:?}");
    let mut wide = 0;
    for seed in SEEDS {
        let mut random = Random::new(seed);
        let count = random.below(24);
        let words: Vec<Words> = random_records(&mut random, count);
        let records = decode_all(&words).expect("they keep their own rules");
        if first_group_fault(&records).is_some() {
            continue;
        }
        let units = units(&records);
        let measure = 8 + random.below(600);
        let setting = Setting { measure, indent: random.below(measure.min(40)) };
        let breaker = Breaker::new(&units, setting);
        let fewest = fewest_lines(&units, 0, setting, &mut vec![None; units.len()]);
        assert_eq!(breaker.first_wide_run().is_none(), fewest.is_some());
        if let Some(fewest) = fewest {
            check_longest(&units, &breaker.lines(), setting);
            assert_eq!(breaker.lines().len(), fewest);
        } else {
            wide += 1;
            // Where the search stands still is the run that answer 10 names.
            let stuck = breaker.lines().last().map_or(0, |line| line.end);
            assert_eq!(breaker.first_wide_run(), Some(units[stuck].first));
        }
    }
    assert!((100..2_900).contains(&wide), "{wide} of the paragraphs have no breaking");
}

#[test]
fn every_line_ends_as_its_kind_says() {
    println!("seeds {SEEDS:?}");
    let mut kinds = [0; 4];
    for seed in SEEDS {
        let mut random = Random::new(seed);
        let count = random.below(60);
        let words = random_records(&mut random, count);
        let measure = 200 + random.below(800);
        let Ok(slot) = second::slot_words(1, measure, random.below(100), &flat(&words)) else {
            continue;
        };
        let lines = &slot[2_056..][..3 * slot[4] as usize];
        for (i, line) in lines.chunks(3).enumerate() {
            let is_final = 3 * (i + 1) == lines.len();
            match line[2] {
                1 => assert!(!is_final && line[1] == measure),
                2 => assert!(!is_final && line[1] < measure),
                3 => assert!(is_final && line[1] <= measure),
                kind => panic!("kind {kind}"),
            }
            kinds[line[2] as usize] += 1;
        }
    }
    println!("flush, short, final: {:?}", &kinds[1..]);
    assert!(kinds[1..].iter().all(|&count| count > 100));
}
