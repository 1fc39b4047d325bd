//! Two reports joined: the totals of two halves add up to those of the whole.

use crate::common::{count_random, say};
use crate::{numbers, of, run};
use generator::reports::{of_length, Kind, Report, TOTALS};
use generator::Rng;
use reference::report::Totals as Second;

/// Two reports joined, by the library and by the second implementation: the totals, or none at 34, which
/// leaves the first as it is.
fn joined(first: [u64; TOTALS], second: [u64; TOTALS]) -> Option<[u64; TOTALS]> {
    let mut totals = of(first);
    let told = totals
        .join(of(second))
        .map_err(|it| (it.number(), it.place()));
    let expected = Second::of(first)
        .and(Second::of(second))
        .map(|own| own.numbers());
    match told {
        Ok(()) => assert_eq!(Some(numbers(totals)), expected, "{first:?} {second:?}"),
        Err(refusal) => {
            assert_eq!((refusal, expected), ((34, 0), None), "{first:?} {second:?}");
            assert_eq!(numbers(totals), first);
        }
    }
    expected
}

/// The report of some of the sections, from nothing unless they are the first.
fn part(report: &Report, from: usize, to: usize) -> Report {
    Report {
        kind: report.kind,
        before: if from == 0 {
            report.before
        } else {
            [0; TOTALS]
        },
        parts: report.parts[from..to].to_vec(),
    }
}

/// A list cut in two at every place.
fn halves(rng: &mut Rng, met: &mut [u64; 3]) {
    let kind = rng.pick(&Kind::ALL);
    let length = 1 + rng.below(6);
    let report = of_length(rng, kind, length);
    let whole = run(&report);
    for cut in 1..=length {
        let [first, second] =
            [part(&report, 0, cut), part(&report, cut, length)].map(|own| run(&own));
        if first.refused.is_some() || second.refused.is_some() {
            // A half that gives 34 has a whole that does.
            assert!(whole.refused.is_some(), "{report:?}");
            met[2] += 1;
            continue;
        }
        let own = joined(first.totals, second.totals);
        let turned = joined(second.totals, first.totals);
        assert_eq!(own, turned, "{report:?}");
        assert_eq!(
            own,
            whole.refused.is_none().then_some(whole.totals),
            "{report:?}"
        );
        met[usize::from(own.is_none())] += 1;
    }
}

#[test]
fn two_halves_add_up_to_the_whole() {
    let met = count_random("halves of reports", 100, 60, halves);
    say(&format!("{met:?} cuts: whole, 34 of the two, 34 of one"));
    assert!(met.iter().all(|met| *met >= 500), "{met:?}");
}

/// Any totals at all, each of the thirteen at its end and past it.
#[test]
fn any_totals_are_joined() {
    let met = count_random(
        "totals joined",
        100,
        1_000,
        |rng, met: &mut [u64; 2 * TOTALS]| {
            let first: [u64; TOTALS] = std::array::from_fn(|_| rng.number(63));
            let mut second: [u64; TOTALS] = std::array::from_fn(|_| rng.number(63));
            assert!(joined(first, second).is_some());
            let nth = rng.below(TOTALS);
            second[nth] = u64::MAX - first[nth];
            let own = joined(first, second).expect("2^64 - 1 is allowed");
            assert_eq!(own[nth], u64::MAX);
            met[nth] += 1;
            if first[nth] > 0 {
                second[nth] += 1;
                assert_eq!(joined(first, second), None);
                assert_eq!(joined(second, first), None);
                met[TOTALS + nth] += 1;
            }
        },
    );
    assert!(met.iter().all(|met| *met >= 1_000), "{met:?}");
}
