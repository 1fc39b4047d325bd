//! The reports against the second implementation: it gives the known answer, in every order, and
//! every total is met at its end and past it.

use super::{of_length, report, Answer, Kind, Part, Report, TOTALS};
use crate::Rng;
use reference::report::{add, lines, report as report_of, Totals};
use reference::Refusal;

/// How many reports a run makes.
const REPORTS: u64 = 20_000;

/// What the second implementation answers.
fn of_reference(report: &Report) -> Answer {
    let sections = report.parts.iter().map(|part| part.bytes.as_slice());
    let own = report_of(Totals::of(report.before), sections);
    let totals = own.totals.numbers();
    let position = |refusal: Refusal| {
        assert_eq!((refusal.number, refusal.place), (34, totals[0]));
        (totals[0] - report.before[0]) as usize
    };
    Answer {
        refused: own.refusal.map(position),
        totals,
    }
}

/// What one section more is answered by the second implementation.
fn added(totals: [u64; TOTALS], part: &Part) -> Result<[u64; TOTALS], Refusal> {
    add(Totals::of(totals), &part.bytes).map(|own| own.numbers())
}

/// What the section that gave 34 would have added, where the answer is 34.
fn too_much(report: &Report, answer: Answer) -> Option<[u128; TOTALS]> {
    report.parts[answer.refused?].adds
}

/// How often each thing was met in a run.
#[derive(Debug, Default)]
struct Met {
    reports: u64,
    sections: u64,
    refused: u64,
    accepted: u64,
    /// Reports that end with 34, and by which total, and such whose totals end at 2^64 - 1.
    number_34: u64,
    past: [u64; TOTALS],
    at_the_end: [u64; TOTALS],
}

impl Met {
    fn note(&mut self, report: &Report, answer: Answer) {
        self.reports += 1;
        self.number_34 += u64::from(answer.refused.is_some());
        for part in &report.parts {
            let is_refused = part.adds == Some(super::REFUSED);
            self.sections += 1;
            self.refused += u64::from(is_refused);
            self.accepted += u64::from(!is_refused);
        }
        let too_much = too_much(report, answer);
        for (nth, total) in answer.totals.into_iter().enumerate() {
            let room = u128::from(u64::MAX - total);
            self.past[nth] += u64::from(too_much.is_some_and(|adds| adds[nth] > room));
            let ends = total == u64::MAX && report.before[nth] < total;
            self.at_the_end[nth] += u64::from(ends && too_much.is_none());
        }
    }
}

#[test]
fn the_second_implementation_gives_the_known_answers() {
    let mut rng = Rng::new(10);
    let mut met = Met::default();
    while met.reports < REPORTS {
        let report = report(&mut rng);
        let own = of_reference(&report);
        let Some(known) = report.answer() else {
            assert_eq!(report.kind, Kind::Damaged);
            continue;
        };
        assert_eq!(own, known, "{report:?}");
        met.note(&report, known);
    }
    println!("{met:?}");
    assert!(met.sections >= 5 * REPORTS, "{met:?}");
    assert!(met.refused >= REPORTS && met.accepted >= REPORTS, "{met:?}");
    assert!(met.number_34 >= REPORTS / 4, "{met:?}");
    assert!(met.past.iter().all(|met| *met >= 100), "{met:?}");
    assert!(met.at_the_end.iter().all(|met| *met >= 100), "{met:?}");
}

/// Also where nobody has worked out the answer.
#[test]
fn another_order_has_the_same_totals_unless_34_is_given() {
    let mut rng = Rng::new(11);
    let (mut same, mut refused, mut open) = (0, 0, 0);
    for _ in 0..6_000 {
        let report = report(&mut rng);
        let answer = of_reference(&report);
        for _ in 0..3 {
            let other = report.reordered(&mut rng);
            let own = of_reference(&other);
            match answer.refused {
                None => assert_eq!(own, answer, "{report:?}"),
                Some(_) => assert!(own.refused.is_some(), "{report:?}"),
            }
            same += u64::from(answer.refused.is_none());
            refused += u64::from(answer.refused.is_some());
            open += u64::from(report.answer().is_none());
        }
    }
    println!("{same} alike, {refused} with 34, {open} open");
    assert!(same >= 6_000 && refused >= 3_000 && open >= 1_500);
}

/// All orders of up to five sections of each kind.
#[test]
fn every_order_of_up_to_five_sections() {
    let mut rng = Rng::new(12);
    let (mut same, mut refused) = (0, 0);
    for nth in 0..360 {
        let kind = Kind::ALL[nth % Kind::ALL.len()];
        let report = of_length(&mut rng, kind, nth / Kind::ALL.len() % 6);
        let answer = of_reference(&report);
        for other in report.orders() {
            let own = of_reference(&other);
            assert!(other.answer().is_none_or(|known| known == own), "{other:?}");
            match answer.refused {
                None => assert_eq!(own, answer, "{report:?}"),
                Some(_) => assert!(own.refused.is_some(), "{report:?}"),
            }
            same += u64::from(answer.refused.is_none());
            refused += u64::from(answer.refused.is_some());
        }
    }
    println!("{same} alike, {refused} with 34");
    assert!(same >= 4_000 && refused >= 1_500);
}

/// Each total, with each section that adds to it: exactly 2^64 - 1 passes, and one more is 34 at that
/// section's position.
#[test]
fn each_total_passes_at_its_end_and_gives_34_past_it() {
    let mut rng = Rng::new(13);
    let mut tried = [0; TOTALS];
    for _ in 0..600 {
        let report = of_length(&mut rng, Kind::Small, 1);
        let part = &report.parts[0];
        let adds = part.adds.expect("known").map(|adds| adds as u64);
        for nth in (0..TOTALS).filter(|nth| adds[*nth] > 0) {
            let mut before: [u64; TOTALS] = std::array::from_fn(|_| rng.number(63) >> 1);
            before[nth] = u64::MAX - adds[nth];
            let after = std::array::from_fn(|total| before[total] + adds[total]);
            assert_eq!(added(before, part), Ok(after));
            before[nth] += 1;
            let refusal = added(before, part).expect_err("one past the end");
            assert_eq!((refusal.number, refusal.place), (34, before[0]));
            tried[nth] += 1;
        }
    }
    println!("{tried:?}");
    assert!(tried.iter().all(|tried| *tried >= 50), "{tried:?}");
}

/// The lines are read back as the totals.
#[test]
fn lines_say_the_totals_or_34_alone() {
    let mut rng = Rng::new(14);
    let (mut nine, mut one) = (0, 0);
    for _ in 0..3_000 {
        let report = report(&mut rng);
        let sections = report.parts.iter().map(|part| part.bytes.as_slice());
        let own = report_of(Totals::of(report.before), sections);
        let text = String::from_utf8(lines(own)).expect("letters and digits");
        assert!(text.ends_with('\n') && !text.ends_with("\n\n"));
        let numbers = text.split_whitespace().filter_map(|word| word.parse().ok());
        let numbers: Vec<u64> = numbers.collect();
        match own.refusal {
            None => assert_eq!(
                (text.lines().count(), numbers),
                (9, own.totals.numbers().into())
            ),
            Some(refusal) => assert_eq!(text, format!("refused 34 at {}\n", refusal.place)),
        }
        nine += u64::from(own.refusal.is_none());
        one += u64::from(own.refusal.is_some());
    }
    assert!(nine >= 1_000 && one >= 500, "{nine}, {one}");
}
