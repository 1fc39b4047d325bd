//! What one section adds, and what the tool writes.

use super::*;
use crate::fixtures::*;
use crate::section::{encode, encode_version_1, write, RecordData, Version};

/// The totals of one section.
pub(super) fn alone(section: &[u8]) -> Totals {
    add(Totals::default(), section).expect("small sums")
}

/// The totals of one refused section.
const ONE_REFUSED: Totals = Totals {
    sections: 1,
    refused: 1,
    functions: 0,
    records: 0,
    statepoints: 0,
    pairs: 0,
    kinds: [0; 5],
    stack: 0,
    unknown: 0,
};

/// The totals of a section with these records alone, which both versions have
/// to agree on: records, statepoints, pairs and kinds.
fn of_records(records: &[RecordData]) -> (u64, u64, u64, [u64; 5]) {
    let own = [function(0x1000, 8, records.len() as u64)];
    let [one, three] = [Version::One, Version::Three].map(|version| {
        let totals = alone(&write(version, &own, &[5, 6], records));
        assert_eq!((totals.sections, totals.refused), (1, 0), "{version:?}");
        totals
    });
    assert_eq!(one, three);
    (one.records, one.statepoints, one.pairs, one.kinds)
}

/// Statepoints and pairs of a section with this one record.
fn of_record(record: RecordData) -> (u64, u64) {
    let (_, statepoints, pairs, _) = of_records(&[record]);
    (statepoints, pairs)
}

#[test]
fn row_c_alone_is_written_as_in_the_paper() {
    let expected = "sections 1\nrefused 0\nfunctions 0\nrecords 0\nstatepoints 0\npairs 0\n\
                    kinds 0 0 0 0 0\nstack 0\nunknown 0\n";
    assert_eq!(run(&[Some(&row_c())]), expected.as_bytes());
    let row_c_1 = with(row_c(), 0, 1);
    assert_eq!(run(&[Some(&row_c_1)]), expected.as_bytes());
}

#[test]
fn row_h_counts_alike_in_both_versions() {
    let expected = Totals {
        sections: 1,
        functions: 1,
        records: 1,
        statepoints: 1,
        pairs: 2,
        kinds: [0, 0, 4, 3, 0],
        stack: 24,
        ..Totals::default()
    };
    assert_eq!(alone(&row_h()), expected);
    assert_eq!(alone(&row_h_1()), expected);
}

/// Rows A, B, D to G, a flat section's version, and sections that hold much
/// and are at fault in their last bytes.
#[test]
fn a_refused_section_adds_to_sections_and_refused_alone() {
    let mut refused = vec![vec![], vec![3; 15], with(row_c(), 0, 2)];
    refused.push([row_c(), vec![0]].concat());
    refused.push(with(row_c(), 12, 1));
    refused.push(with(row_c(), 4, 1));
    refused.push(with(row_h(), 151, 1));
    refused.push(with(row_h_1(), 111, 1));
    refused.push([row_h(), vec![0]].concat());
    refused.push(row_h()[..151].to_vec());
    refused.push([vec![2], row_h()[1..].to_vec()].concat());
    for section in refused {
        assert!(read(&section).is_err());
        assert_eq!(alone(&section), ONE_REFUSED, "{section:?}");
    }
}

/// So many of each kind, no two alike, in records that are statepoints and not.
#[test]
fn every_kind_is_counted_in_its_own_place() {
    let kinds = [1u8, 2, 2, 3, 3, 3, 4, 4, 4, 4, 5, 5, 5, 5, 5];
    let locations: Vec<_> = kinds.map(|kind| location(kind, 8, 7, 1)).into();
    let plain = record(0, locations.clone(), vec![]);
    assert_eq!(
        of_records(std::slice::from_ref(&plain)),
        (1, 0, 0, [1, 2, 3, 4, 5])
    );
    let with_live_outs = record(4, locations.clone(), vec![live_out(7, 8); 3]);
    let mut deopt = vec![small(0), small(0), small(15)];
    deopt.extend(locations);
    let records = [plain, with_live_outs, record(8, deopt, vec![])];
    assert_eq!(of_records(&records), (3, 1, 0, [3, 6, 9, 15, 15]));
}

/// The pairs of every statepoint count: null ones, ones of wrong form, and
/// those past 256. Deopt locations are none.
#[test]
fn pairs_are_half_of_what_follows_the_deopt_locations() {
    let null = (small(0), location(5, 8, 0, 0));
    let wrong = (location(1, 4, 300, 7), location(2, 0, 0, -1));
    for count in [0, 1, 2, 255, 256, 257, 1_000] {
        for pair in [(rsp(8), rbp(16)), null.clone(), wrong.clone()] {
            let record = statepoint(0, &vec![pair; count]);
            assert_eq!(of_record(record), (1, count as u64));
        }
    }
    for deopt in 0..=6 {
        let mut locations = vec![small(9), small(-9), small(deopt)];
        locations.extend(vec![rsp(8); 6]);
        let expected = [(1, 3 - deopt as u64 / 2), (0, 0)][deopt as usize % 2];
        assert_eq!(of_record(record(0, locations, vec![])), expected);
    }
}

#[test]
fn statepoints_at_the_edge_of_the_test() {
    let three = |deopt| vec![small(7), small(-1), small(deopt)];
    let with_kind = |at: usize, kind| {
        let mut locations = [three(0), vec![rsp(8); 2]].concat();
        locations[at] = location(kind, 8, 0, 0);
        locations
    };
    let is = |locations, live_outs| of_record(record(0, locations, live_outs)).0 == 1;
    for count in 0..3 {
        assert!(!is(vec![small(0); count], vec![]));
    }
    assert!(is(three(0), vec![]) && !is(three(1), vec![]));
    for deopt in [-1, -2, i32::MIN, i32::MIN + 1, 3, 4, 65_536, i32::MAX] {
        assert!(!is([three(deopt), vec![rsp(8); 2]].concat(), vec![]));
    }
    assert!(is([three(2), vec![rsp(8); 2]].concat(), vec![]));
    assert!(!is([three(1), vec![rsp(8); 2]].concat(), vec![]));
    assert!(is([three(1), vec![rsp(8); 3]].concat(), vec![]));
    for at in 0..3 {
        for kind in [1, 2, 3, 5] {
            assert!(!is(with_kind(at, kind), vec![]));
        }
    }
    assert!(is(with_kind(3, 4), vec![]));
    assert!(!is(three(0), vec![live_out(0, 0)]));
}

/// 2^64 - 1 means not known and adds to no sum; one less is known.
#[test]
fn stack_sizes_known_and_unknown() {
    let sizes = |sizes: &[u64]| {
        let own: Vec<_> = sizes.iter().map(|&size| function(1, size, 0)).collect();
        let three = alone(&encode(&own, &[], &[]));
        assert_eq!(three, alone(&encode_version_1(&own, &[], &[])));
        (three.functions, three.stack, three.unknown)
    };
    assert_eq!(sizes(&[]), (0, 0, 0));
    assert_eq!(sizes(&[0, 8, 16]), (3, 24, 0));
    assert_eq!(sizes(&[u64::MAX]), (1, 0, 1));
    assert_eq!(sizes(&[u64::MAX - 1]), (1, u64::MAX - 1, 0));
    assert_eq!(
        sizes(&[u64::MAX, 8, u64::MAX, 1 << 63]),
        (4, (1 << 63) + 8, 2)
    );
    assert_eq!(sizes(&[u64::MAX; 5]), (5, 0, 5));
}

#[test]
fn numbers_are_in_the_order_of_the_lines() {
    let numbers = std::array::from_fn(|nth| nth as u64 + 1);
    let totals = Totals::of(numbers);
    assert_eq!(totals.numbers(), numbers);
    let written = lines(Report {
        refusal: None,
        totals,
    });
    let expected = "sections 1\nrefused 2\nfunctions 3\nrecords 4\nstatepoints 5\npairs 6\n\
                    kinds 7 8 9 10 11\nstack 12\nunknown 13\n";
    assert_eq!(written, expected.as_bytes());
    let largest = Totals::of([u64::MAX; TOTALS]);
    assert_eq!(largest.numbers(), [u64::MAX; TOTALS]);
}

/// Files of 65,536 bytes are read; longer ones, and those that can't be read,
/// count as refused.
#[test]
fn files_that_are_not_read_count_as_refused() {
    let longest = encode(&[], &vec![7; 8_190], &[]);
    let longer = encode(&[], &vec![7; 8_191], &[]);
    assert_eq!((longest.len(), longer.len()), (65_536, 65_544));
    let one_more = [longest.clone(), vec![0]].concat();
    let written = |files: &[Option<&[u8]>]| {
        let text = String::from_utf8(run(files)).unwrap();
        let two: Vec<&str> = text.lines().take(2).collect();
        (text.lines().count(), two.join(" "))
    };
    let line = |text: &str| (9, text.to_string());
    assert_eq!(written(&[Some(&longest)]), line("sections 1 refused 0"));
    assert_eq!(written(&[Some(&longer)]), line("sections 1 refused 1"));
    assert_eq!(written(&[Some(&one_more)]), line("sections 1 refused 1"));
    assert_eq!(written(&[None]), line("sections 1 refused 1"));
    assert_eq!(written(&[]), line("sections 0 refused 0"));
    let row_h = row_h();
    let twice = [Some(&row_h[..]), None, Some(&row_h[..])];
    let expected = "sections 3\nrefused 1\nfunctions 2\nrecords 2\nstatepoints 2\npairs 4\n\
                    kinds 0 0 8 6 0\nstack 48\nunknown 0\n";
    assert_eq!(run(&twice), expected.as_bytes());
    assert!(alone(&longer).refused == 0, "only the tool has the limit");
}
