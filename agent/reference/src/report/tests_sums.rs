//! Refusal 34: sums at 2^64 - 1 and past it.

use super::tests::alone;
use super::*;
use crate::fixtures::*;
use crate::section::{encode, encode_version_1, write, Version};

/// A section that adds to every total but the refused.
fn full(version: Version) -> Vec<u8> {
    let kinds: Vec<_> = (1..=5).map(|kind| location(kind, 8, 7, 1)).collect();
    let plain = record(4, kinds, vec![live_out(7, 8)]);
    let records = [statepoint(0, &[(rsp(8), rsp(8))]), plain];
    let own = [function(1, u64::MAX, 2), function(2, 24, 0)];
    write(version, &own, &[5, 6], &records)
}

/// A section with functions of these stack sizes and nothing else.
fn stack(sizes: &[u64]) -> Vec<u8> {
    let own: Vec<_> = sizes.iter().map(|&size| function(1, size, 0)).collect();
    encode(&own, &[], &[])
}

/// The report of these sections alone.
fn of(sections: &[Vec<u8>]) -> Report {
    report(Totals::default(), sections.iter().map(Vec::as_slice))
}

/// One total so near to the end that the section takes it exactly there, all
/// others as they were; and then one more.
#[test]
fn each_total_passes_at_its_end_and_gives_34_past_it() {
    let sections = [full(Version::One), full(Version::Three), vec![]];
    let mut tried = [0; TOTALS];
    for section in &sections {
        let added = alone(section).numbers();
        for nth in (0..TOTALS).filter(|&nth| added[nth] > 0) {
            let mut before = [7; TOTALS];
            before[nth] = u64::MAX - added[nth];
            let mut after = added.map(|added| added + 7);
            after[nth] = u64::MAX;
            assert_eq!(add(Totals::of(before), section), Ok(Totals::of(after)));
            before[nth] += 1;
            let refused = refusal(34, before[0]);
            assert_eq!(add(Totals::of(before), section), refused, "{nth}");
            tried[nth] += 1;
        }
    }
    assert_eq!(tried, [3, 1, 2, 2, 2, 2, 2, 2, 2, 2, 2, 2, 2]);
}

/// A total to which a section adds nothing may be 2^64 - 1 already.
#[test]
fn totals_at_their_end_stay_where_nothing_is_added() {
    let mut before = [u64::MAX; TOTALS];
    before[0] = 3;
    let mut after = before;
    after[0] = 4;
    assert_eq!(add(Totals::of(before), &row_c()), Ok(Totals::of(after)));
    assert_eq!(add(Totals::of(before), &[]), refusal(34, 3));
    before[0] = u64::MAX;
    assert_eq!(add(Totals::of(before), &row_c()), refusal(34, u64::MAX));
}

/// A sum isn't taken modulo anything: not inside a section either.
#[test]
fn one_section_can_be_34_by_itself() {
    let half = 1 << 63;
    let most = u64::MAX - 1;
    let answer = |sizes: &[u64]| add(Totals::default(), &stack(sizes)).map(|own| own.stack);
    assert_eq!(answer(&[half, half]), refusal(34, 0));
    assert_eq!(answer(&[half, half - 1]), Ok(u64::MAX));
    assert_eq!(answer(&[most, 1]), Ok(u64::MAX));
    assert_eq!(answer(&[most, 2]), refusal(34, 0));
    assert_eq!(answer(&[most, 1, u64::MAX]), Ok(u64::MAX));
    assert_eq!(answer(&[most; 3]), refusal(34, 0));
    assert_eq!(answer(&vec![half; 1 << 10]), refusal(34, 0));
    let own = vec![function(1, most, 0); 1_048_575];
    let largest = encode_version_1(&own, &[], &[]);
    assert_eq!(largest.len(), 16_777_216);
    assert_eq!(add(Totals::default(), &largest), refusal(34, 0));
}

/// The refused ones before it are counted in the position; it adds nothing;
/// what comes after isn't read.
#[test]
fn a_34_ends_the_report() {
    let most = stack(&[u64::MAX - 1]);
    let sections = [vec![], row_h(), most.clone(), row_h(), most, vec![]];
    let answer = of(&sections);
    let expected = Report {
        refusal: Some(Refusal {
            number: 34,
            place: 2,
        }),
        totals: of(&sections[..2]).totals,
    };
    assert_eq!(answer, expected);
    assert_eq!((answer.totals.sections, answer.totals.refused), (2, 1));
    assert_eq!(answer.totals.functions, 1);
    assert_eq!(lines(answer), b"refused 34 at 2\n");
}

#[test]
fn the_tool_writes_the_refusal_alone() {
    let most = stack(&[u64::MAX - 1]);
    let two = stack(&[2]);
    let one = stack(&[1]);
    let files = |last| [None, Some(&most[..]), Some(last), None];
    assert_eq!(run(&files(&two)), b"refused 34 at 2\n");
    let text = String::from_utf8(run(&files(&one))).unwrap();
    assert!(text.contains("stack 18446744073709551615\n"), "{text}");
    assert!(text.starts_with("sections 4\nrefused 2\n"), "{text}");
    let both = stack(&[1 << 63; 2]);
    assert_eq!(run(&[Some(&both)]), b"refused 34 at 0\n");
}

/// Every total by itself, of two reports that are added.
#[test]
fn reports_that_are_added_pass_at_the_end_and_not_past_it() {
    for nth in 0..TOTALS {
        let (mut one, mut other) = ([1; TOTALS], [2; TOTALS]);
        (one[nth], other[nth]) = (u64::MAX - 5, 5);
        let mut sums = [3; TOTALS];
        sums[nth] = u64::MAX;
        let added = Totals::of(one).and(Totals::of(other));
        assert_eq!(added, Some(Totals::of(sums)));
        other[nth] = 6;
        assert_eq!(Totals::of(one).and(Totals::of(other)), None);
        assert_eq!(Totals::of(other).and(Totals::of(one)), None);
    }
}
