//! The monthly report by the proved library, by the second implementation, and as the generator knows it: lists
//! of sections of both versions, whole, refused and damaged, with totals to begin from that end at 2^64 - 1, one
//! past it, or begin shortly before it.
//!
//! Totals are compared after every section, also where it is refused by 34. The random reports follow from a
//! seed. It is printed; `TRESKIBBEN_SEED` sets it.

mod common;
#[allow(dead_code)] // Three of the rows are enough here.
mod rows;

#[path = "report/edges.rs"]
mod edges;
#[path = "report/halves.rs"]
mod halves;
#[path = "report/orders.rs"]
mod orders;
#[path = "report/statepoints.rs"]
mod statepoints;
#[path = "report/tool.rs"]
mod tool;
#[path = "report/worked.rs"]
mod worked;

use common::{assert_often, count_random, differ, say};
use generator::reports::{report, Answer, Kind, Part, Report, REFUSED, TOTALS};
use generator::Rng;
use reference::report as second;
use treskibben::report::{Kinds, Totals};

/// Reports in a run, of six sections on average, made in parts that each have a source of random numbers.
const PARTS: u64 = 200;
const REPORTS_A_PART: u64 = 250;

/// The totals with these numbers, in the order of the lines.
pub fn of(numbers: [u64; TOTALS]) -> Totals {
    let [sections, refused, functions, records, statepoints, pairs, rest @ ..] = numbers;
    let [register, direct, indirect, constant, const_index, stack, unknown] = rest;
    let kinds = Kinds {
        register,
        direct,
        indirect,
        constant,
        const_index,
    };
    Totals {
        sections,
        refused,
        functions,
        records,
        statepoints,
        pairs,
        kinds,
        stack,
        unknown,
    }
}

/// All thirteen, in the order of the lines.
pub fn numbers(totals: Totals) -> [u64; TOTALS] {
    let [register, direct, indirect, constant, const_index] = totals.kinds.numbers();
    [
        totals.sections,
        totals.refused,
        totals.functions,
        totals.records,
        totals.statepoints,
        totals.pairs,
        register,
        direct,
        indirect,
        constant,
        const_index,
        totals.stack,
        totals.unknown,
    ]
}

/// One section more, by the library and by the second implementation: the totals after it, and whether it gave
/// 34, at its position. Where they differ, the test fails.
pub fn step(before: [u64; TOTALS], section: &[u8]) -> ([u64; TOTALS], bool) {
    let mut totals = of(before);
    let told = totals.add(section).map_err(|it| (it.number(), it.place()));
    let own = second::add(second::Totals::of(before), section);
    let after = own.map_or(before, |own| own.numbers());
    let expected = own.map(|_| ()).map_err(|it| (it.number, it.place));
    if (told, numbers(totals)) != (expected, after) {
        let answers = format!("{told:?} {totals:?}, by the second {expected:?} {after:?}");
        differ(&format!("a section after {before:?}"), section, &answers);
    }
    if let Err(refusal) = told {
        assert_eq!((refusal, after), ((34, before[0]), before));
    }
    (after, told.is_err())
}

/// A whole report, section by section up to the one that gives 34.
pub fn run(report: &Report) -> Answer {
    let mut totals = report.before;
    for (position, part) in report.parts.iter().enumerate() {
        let (after, passed) = step(totals, &part.bytes);
        totals = after;
        if passed {
            let refused = Some(position);
            return Answer { refused, totals };
        }
    }
    let refused = None;
    Answer { refused, totals }
}

/// The same in one call, which ends at 34 and keeps what was added before it.
pub fn at_once(report: &Report) -> Answer {
    let mut totals = of(report.before);
    let mut taken = 0;
    let sections = report.parts.iter().inspect(|_| taken += 1);
    let ended = totals.add_all(sections.map(|part| &part.bytes));
    let refused = ended.err().map(|refusal| {
        assert_eq!((refusal.number(), refusal.place()), (34, totals.sections));
        taken - 1
    });
    assert!(refused.is_some() || taken == report.parts.len());
    let totals = numbers(totals);
    Answer { refused, totals }
}

/// What is counted: reports of each kind, sections of each sort, and for each total how often it gave 34 and how
/// often it ended at 2^64 - 1.
const SECTIONS: usize = Kind::ALL.len();
const SORTS: [&str; 6] = [
    "version 1 accepted",
    "version 3 accepted",
    "refused",
    "damaged and accepted",
    "damaged and refused",
    "34",
];
const PAST: usize = SECTIONS + SORTS.len();
const EXACT: usize = PAST + TOTALS;
const COUNTS: usize = EXACT + TOTALS;

fn name(nth: usize) -> String {
    match nth {
        0..SECTIONS => format!("reports of kind {:?}", Kind::ALL[nth]),
        SECTIONS..PAST => SORTS[nth - SECTIONS].to_string(),
        PAST..EXACT => format!("total {} past its end", nth - PAST),
        _ => format!("total {} at its end", nth - EXACT),
    }
}

/// The place of a section's sort.
fn sort(part: &Part) -> usize {
    let is_accepted = treskibben::check(&part.bytes).is_ok();
    match part.adds {
        None => 3 + usize::from(!is_accepted),
        Some(REFUSED) => 2,
        Some(_) => usize::from(part.bytes[0] == 3),
    }
}

fn count(report: &Report, answer: Answer, counts: &mut [u64; COUNTS]) {
    let kind = Kind::ALL.iter().position(|kind| *kind == report.kind);
    counts[kind.expect("one of them")] += 1;
    for part in &report.parts {
        counts[SECTIONS + sort(part)] += 1;
    }
    counts[PAST - 1] += u64::from(answer.refused.is_some());
    let too_much = answer.refused.and_then(|nth| report.parts[nth].adds);
    for (nth, total) in answer.totals.into_iter().enumerate() {
        let room = u128::from(u64::MAX - total);
        let past = too_much.is_some_and(|adds| adds[nth] > room);
        let exact = total == u64::MAX && report.before[nth] < total && answer.refused.is_none();
        counts[PAST + nth] += u64::from(past);
        counts[EXACT + nth] += u64::from(exact);
    }
}

fn compare(rng: &mut Rng, counts: &mut [u64; COUNTS]) {
    let report = report(rng);
    let answer = run(&report);
    assert_eq!(at_once(&report), answer, "{report:?}");
    assert!(
        report.answer().is_none_or(|known| known == answer),
        "{answer:?}, and known is {:?}, of {report:?}",
        report.answer()
    );
    count(&report, answer, counts);
}

#[test]
fn library_second_implementation_and_generator_agree() {
    let counts = count_random("reports", PARTS, REPORTS_A_PART, compare);
    let named: Vec<String> = (0..COUNTS)
        .map(|nth| format!("{} {}", counts[nth], name(nth)))
        .collect();
    say(&named.join(", "));
    // An end is met once in a report, and by each total in turn: these are rarer than the rest.
    assert_often(&counts[..PAST], name);
    for (nth, count) in counts.iter().enumerate().skip(PAST) {
        assert!(*count >= 100, "{}: only {count} times", name(nth));
    }
}
