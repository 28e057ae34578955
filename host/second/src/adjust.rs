//! How a line is brought to the measure (document 01, "Breaks and adjustment").

use crate::breaking::Gap;

/// A line's kind, with its number on the sheet.
#[derive(Debug, Clone, Copy, PartialEq, Eq)]
pub enum Kind {
    /// It ends at the measure.
    Flush = 1,
    /// It is not the final line, and nothing in it could be stretched to the measure.
    Short = 2,
    /// It is the paragraph's last line.
    Final = 3,
}

/// A line's gaps as they are set, and its kind.
#[derive(Debug, Clone, PartialEq, Eq)]
pub struct Adjusted {
    /// The width of each gap.
    pub widths: Vec<u32>,
    /// The line's kind.
    pub kind: Kind,
}

/// Adjusts a line of this natural width, indent included.
pub fn adjust(gaps: &[Gap], natural: u32, measure: u32, is_final: bool) -> Adjusted {
    let mut widths: Vec<u32> = gaps.iter().map(|gap| gap.space.natural).collect();
    if natural > measure {
        shrink(&mut widths, gaps, natural - measure);
    }
    let kind = if is_final {
        Kind::Final
    } else if stretch(&mut widths, gaps, measure.saturating_sub(natural)) == 0 {
        Kind::Flush
    } else {
        Kind::Short
    };
    Adjusted { widths, kind }
}

/// Takes `excess` from the gaps, shrink stage 1 before stage 2.
fn shrink(widths: &mut [u32], gaps: &[Gap], mut excess: u32) {
    for stage in [0, 1] {
        let capacity = |gap: &Gap| gap.space.shrink[stage];
        let part = excess.min(total(gaps, capacity));
        share(gaps, part, capacity, |i, share| widths[i] -= share);
        excess -= part;
    }
}

/// Adds `missing` to the gaps, stretch stage 1 before stage 2, and says what no gap could take.
fn stretch(widths: &mut [u32], gaps: &[Gap], missing: u32) -> u32 {
    let capacity = |gap: &Gap| gap.space.stretch;
    let part = missing.min(total(gaps, capacity));
    share(gaps, part, capacity, |i, share| widths[i] += share);
    let left = missing - part;

    let weight = |gap: &Gap| u32::from(gap.opens);
    if total(gaps, weight) == 0 {
        return left;
    }
    share(gaps, left, weight, |i, share| widths[i] += share);
    0
}

fn total(gaps: &[Gap], weight: impl Fn(&Gap) -> u32) -> u32 {
    gaps.iter().map(weight).sum()
}

/// Shares an amount E by cumulative weight S over the total C: gap i gets
/// floor(E·S_i/C) − floor(E·S_(i−1)/C). A stage with C = 0 is skipped, and so is one with E = 0.
fn share(gaps: &[Gap], amount: u32, weight: impl Fn(&Gap) -> u32, mut give: impl FnMut(usize, u32)) {
    let total = total(gaps, &weight);
    if amount == 0 || total == 0 {
        return;
    }
    let mut sum = 0;
    let mut given = 0;
    for (i, gap) in gaps.iter().enumerate() {
        sum += weight(gap);
        let up_to_here = (u64::from(amount) * u64::from(sum) / u64::from(total)) as u32;
        give(i, up_to_here - given);
        given = up_to_here;
    }
}

#[cfg(test)]
mod tests {
    use super::*;
    use crate::spacing::Space;

    fn gap(natural: u32, shrink: [u32; 2], stretch: u32, opens: bool) -> Gap {
        Gap { space: Space { natural, shrink, stretch }, permits_break: opens, opens }
    }

    #[test]
    fn leftovers_do_not_go_to_the_last_gap() {
        let adjusted = adjust(&[gap(0, [0, 0], 0, true); 3], 320, 400, false);
        assert_eq!(adjusted.widths, [26, 27, 27]);
        assert_eq!(adjusted.kind, Kind::Flush);
    }

    #[test]
    fn shrink_stage_1_is_used_up_before_stage_2() {
        let gaps = [gap(40, [20, 0], 0, true), gap(20, [0, 10], 20, true)];
        let widths = |excess: u32| adjust(&gaps, 400 + excess, 400, true).widths;
        assert_eq!(widths(0), [40, 20]);
        assert_eq!(widths(19), [21, 20]);
        assert_eq!(widths(20), [20, 20]);
        assert_eq!(widths(21), [20, 19]);
        assert_eq!(widths(30), [20, 10]);
    }

    #[test]
    fn shares_follow_the_capacities() {
        let gaps = [gap(40, [20, 0], 0, true), gap(20, [10, 0], 0, true)];
        assert_eq!(adjust(&gaps, 410, 400, true).widths, [34, 16]);
        assert_eq!(adjust(&gaps, 402, 400, true).widths, [39, 19]);
        assert_eq!(adjust(&gaps, 401, 400, true).widths, [40, 19]);
    }

    #[test]
    fn stretch_stage_1_is_used_up_before_stage_2() {
        let gaps = [gap(20, [0, 10], 20, true), gap(0, [0, 0], 0, true)];
        let widths = |missing: u32| adjust(&gaps, 400 - missing, 400, false).widths;
        assert_eq!(widths(20), [40, 0]);
        assert_eq!(widths(23), [41, 2]);
    }

    #[test]
    fn a_line_is_short_where_stage_2_has_no_gap() {
        let western = [gap(20, [0, 10], 20, false)];
        let adjusted = adjust(&western, 370, 400, false);
        assert_eq!((adjusted.widths.as_slice(), adjusted.kind), (&[40][..], Kind::Short));
        assert_eq!(adjust(&western, 380, 400, false).kind, Kind::Flush);
        assert_eq!(adjust(&[], 400, 400, false).kind, Kind::Flush);
        assert_eq!(adjust(&[], 399, 400, false).kind, Kind::Short);
    }

    #[test]
    fn the_final_line_is_never_stretched() {
        let adjusted = adjust(&[gap(0, [0, 0], 0, true)], 300, 400, true);
        assert_eq!((adjusted.widths.as_slice(), adjusted.kind), (&[0][..], Kind::Final));
    }
}
