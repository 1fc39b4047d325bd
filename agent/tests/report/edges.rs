//! Sums at the edge of 2^64 - 1, and sections of the largest length.

use crate::common::{count_parts, say, seed};
use crate::{numbers, step};
use generator::largest;
use generator::layout::{Function, Section, LARGEST};
use generator::reports::{counts, of_length, Kind, TOTALS};
use generator::Version;
use treskibben::report::Totals;

/// Each total, with each section that adds to it: exactly 2^64 - 1 passes, and one more is 34 at that section's
/// position, with the totals as they were.
#[test]
fn each_total_passes_at_its_end_and_gives_34_past_it() {
    let seed = seed("totals at their ends");
    let tried = count_parts(seed, 40, |rng, tried: &mut [u64; TOTALS]| {
        for _ in 0..100 {
            let report = of_length(rng, Kind::Small, 1);
            let part = &report.parts[0];
            let adds = part.adds.expect("known").map(|adds| adds as u64);
            for nth in (0..TOTALS).filter(|nth| adds[*nth] > 0) {
                let mut before: [u64; TOTALS] = std::array::from_fn(|_| rng.number(63) >> 1);
                before[nth] = u64::MAX - adds[nth];
                let after = std::array::from_fn(|total| before[total] + adds[total]);
                assert_eq!(step(before, &part.bytes), (after, false));
                before[nth] += 1;
                assert_eq!(step(before, &part.bytes), (before, true));
                before[nth] = u64::MAX;
                assert_eq!(step(before, &part.bytes), (before, true));
                tried[nth] += 1;
            }
        }
    });
    say(&format!("{tried:?} sections at the end of each total"));
    assert!(tried.iter().all(|tried| *tried >= 300), "{tried:?}");
}

/// A section of functions alone, with these stack sizes.
fn of_sizes(version: Version, sizes: &[u64]) -> Vec<u8> {
    let function = |&stack_size: &u64| Function {
        address: 0x1000,
        stack_size,
        record_count: 0,
    };
    let section = Section {
        version,
        functions: sizes.iter().map(function).collect(),
        ..Section::default()
    };
    section.encode()
}

/// Stack sizes, and their sum and how many are unknown; none where the sum passes.
type Sizes<'a> = (&'a [u64], Option<(u64, u64)>);

/// Stack sizes inside one section: their sum, which may pass by itself, and the unknown ones, which add to none.
#[test]
fn stack_sizes_of_one_section() {
    const HALF: u64 = 1 << 63;
    let lists: [Sizes; 10] = [
        (&[], Some((0, 0))),
        (&[u64::MAX], Some((0, 1))),
        (&[u64::MAX; 5], Some((0, 5))),
        (&[u64::MAX - 1], Some((u64::MAX - 1, 0))),
        (&[u64::MAX - 1, 1], Some((u64::MAX, 0))),
        (&[u64::MAX - 1, 1, u64::MAX], Some((u64::MAX, 1))),
        (&[u64::MAX - 1, 2], None),
        (&[HALF, HALF - 1], Some((u64::MAX, 0))),
        (&[HALF, u64::MAX, HALF], None),
        // Sums that wrap around to a small number, and over it twice.
        (&[u64::MAX - 1; 7], None),
    ];
    for version in Version::ALL {
        for (sizes, expected) in lists {
            let section = of_sizes(version, sizes);
            for sections in [0, 1, 17] {
                let mut before = [0; TOTALS];
                before[0] = sections;
                let (after, passed) = step(before, &section);
                assert_eq!(passed, expected.is_none(), "{sizes:?}");
                if let Some((stack, unknown)) = expected {
                    let functions = sizes.len() as u64;
                    assert_eq!((after[0], after[1]), (sections + 1, 0));
                    assert_eq!(
                        (after[2], after[11], after[12]),
                        (functions, stack, unknown)
                    );
                }
            }
        }
    }
}

/// A report that ends with 34 goes on from its totals with another section, and nothing of the refused one is
/// left.
#[test]
fn the_section_with_34_adds_nothing() {
    for version in Version::ALL {
        let large = of_sizes(version, &[u64::MAX - 1, u64::MAX]);
        let (one, two) = (of_sizes(version, &[1]), of_sizes(version, &[2, 0]));
        let mut totals = Totals::of([&large]).expect("2^64 - 2");
        let before = totals;
        let refusal = totals.add(&two).expect_err("2^64");
        assert_eq!((refusal.number(), refusal.place()), (34, 1));
        assert_eq!(totals, before);
        totals.add(&one).expect("2^64 - 1");
        assert_eq!(
            (totals.sections, totals.stack, totals.functions),
            (2, u64::MAX, 3)
        );
        // A refused section still adds, and so does one without stack sizes.
        totals.add(&[]).expect("a refused section");
        totals.add(&of_sizes(version, &[])).expect("no functions");
        assert_eq!((totals.sections, totals.refused, totals.unknown), (4, 1, 1));
        let ended = Totals::of([&large, &two, &one]).expect_err("2^64");
        assert_eq!((ended.number(), ended.place()), (34, 1));
    }
}

/// Sections of 16,777,216 bytes count, and longer ones are refused.
#[test]
fn the_largest_sections() {
    let mut tried = 0;
    largest::sections(seed("reports of the largest sections"), &mut |section| {
        let mut bytes = section.encode();
        let adds = counts(section);
        let (after, passed) = step([0; TOTALS], &bytes);
        assert_eq!(passed, adds.iter().any(|adds| *adds > u128::from(u64::MAX)));
        assert!(passed || after.map(u128::from) == adds);
        assert_eq!(bytes.len(), LARGEST);
        bytes.resize(LARGEST + 1, 0);
        let refused = Totals::of([&bytes]).map(numbers);
        assert_eq!(refused, Ok([1, 1, 0, 0, 0, 0, 0, 0, 0, 0, 0, 0, 0]));
        tried += 1;
    });
    assert_eq!(tried, 8);
}
