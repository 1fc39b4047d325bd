//! Reports over many sections: lists of sections of both versions, whole and refused, with totals to
//! begin from, often close to 2^64 - 1, and what the report must be. Everything is made from a seed.
//!
//! The totals stand in the order in which they are written: sections, refused, functions, records,
//! statepoints, pairs, kinds 1 to 5, stack, unknown.

mod counts;
mod sections;

#[cfg(test)]
mod tests;
#[cfg(test)]
mod tests_shapes;

pub use counts::{counts, REFUSED};
pub use sections::{section, small_section};

use crate::layout::Version;
use crate::rng::Rng;
use crate::{aimed, case_of};

/// How many totals there are.
pub const TOTALS: usize = 13;

/// What kind of report is made.
#[derive(Clone, Copy, Debug, PartialEq, Eq)]
pub enum Kind {
    /// From nothing, with small stack sizes: 34 is never given.
    Small,
    /// From nothing, with stack sizes of all sorts.
    Any,
    /// With one total that ends exactly at 2^64 - 1.
    Exact,
    /// With one total that would end one past 2^64 - 1.
    Past,
    /// From totals close to 2^64 - 1, one of them or all.
    Late,
    /// From nothing, with sections that are damaged in any way, so that the answer isn't known.
    Damaged,
}

impl Kind {
    /// All of them.
    pub const ALL: [Kind; 6] = [
        Kind::Small,
        Kind::Any,
        Kind::Exact,
        Kind::Past,
        Kind::Late,
        Kind::Damaged,
    ];
}

/// One section of a list.
#[derive(Clone, Debug, PartialEq, Eq)]
pub struct Part {
    pub bytes: Vec<u8>,
    /// What it adds to each total, where that is known.
    pub adds: Option<[u128; TOTALS]>,
}

/// What a report must be.
#[derive(Clone, Copy, Debug, PartialEq, Eq)]
pub struct Answer {
    /// The position in the list of the section that gives 34, if one does.
    pub refused: Option<usize>,
    /// The totals of all sections, or of those before that one.
    pub totals: [u64; TOTALS],
}

/// A list of sections, and the totals that the report begins from.
#[derive(Clone, Debug, PartialEq, Eq)]
pub struct Report {
    pub kind: Kind,
    pub before: [u64; TOTALS],
    pub parts: Vec<Part>,
}

impl Report {
    /// What the report must be, unless a section is in it of which nobody knows what it adds.
    pub fn answer(&self) -> Option<Answer> {
        let mut totals = self.before;
        for (position, part) in self.parts.iter().enumerate() {
            let adds = part.adds?;
            let sums: [u128; TOTALS] = std::array::from_fn(|n| u128::from(totals[n]) + adds[n]);
            if sums.iter().any(|sum| *sum > u128::from(u64::MAX)) {
                let refused = Some(position);
                return Some(Answer { refused, totals });
            }
            totals = sums.map(|sum| sum as u64);
        }
        let refused = None;
        Some(Answer { refused, totals })
    }

    /// The same sections in another order, any or turned round, from the same totals.
    pub fn reordered(&self, rng: &mut Rng) -> Report {
        let mut report = self.clone();
        if rng.one_in(4) {
            report.parts.reverse();
            return report;
        }
        for nth in (1..report.parts.len()).rev() {
            report.parts.swap(nth, rng.below(nth + 1));
        }
        report
    }

    /// The same sections in every order, of which there are n! for n sections: up to 5 or so.
    pub fn orders(&self) -> Vec<Report> {
        let mut orders = vec![Vec::new()];
        for part in &self.parts {
            let mut longer = Vec::new();
            for order in &orders {
                for at in 0..=order.len() {
                    let mut parts: Vec<Part> = order.clone();
                    parts.insert(at, part.clone());
                    longer.push(parts);
                }
            }
            orders = longer;
        }
        let report = |parts| Report {
            kind: self.kind,
            before: self.before,
            parts,
        };
        orders.into_iter().map(report).collect()
    }

    /// What all sections add together, none of which is of unknown worth.
    fn sums(&self) -> [u128; TOTALS] {
        let adds = self.parts.iter().filter_map(|part| part.adds);
        adds.fold([0; TOTALS], |sums, adds| {
            std::array::from_fn(|nth| sums[nth] + adds[nth])
        })
    }
}

/// A random report of up to 12 sections.
pub fn report(rng: &mut Rng) -> Report {
    let kind = rng.pick(&Kind::ALL);
    let length = rng.below(13);
    of_length(rng, kind, length)
}

/// A random report of this kind over so many sections.
pub fn of_length(rng: &mut Rng, kind: Kind, length: usize) -> Report {
    let mut report = Report {
        kind,
        before: [0; TOTALS],
        parts: (0..length).map(|_| part(rng, kind)).collect(),
    };
    match kind {
        Kind::Small | Kind::Any | Kind::Damaged => {}
        Kind::Exact => begin_at(rng, &mut report, 0),
        Kind::Past => begin_at(rng, &mut report, 1),
        Kind::Late => begin_late(rng, &mut report),
    }
    report
}

/// Has one total to which some section adds begin so that it ends at 2^64 - 1 or so far past it.
/// Where nothing is added to any total, all are left at 0.
fn begin_at(rng: &mut Rng, report: &mut Report, past: u64) {
    let sums = report.sums();
    let added: Vec<usize> = (0..TOTALS).filter(|nth| sums[*nth] > 0).collect();
    if added.is_empty() {
        return;
    }
    for before in &mut report.before {
        *before = rng.number(16);
    }
    let nth = rng.pick(&added);
    report.before[nth] = u64::MAX - sums[nth] as u64 + past;
}

/// Has one total, or each, begin at most 40 before 2^64 - 1.
fn begin_late(rng: &mut Rng, report: &mut Report) {
    let one = rng.below(TOTALS);
    let all = rng.one_in(4);
    for (nth, before) in report.before.iter_mut().enumerate() {
        let near = rng.below(41) as u64;
        *before = match nth == one || all {
            true => u64::MAX - rng.pick(&[near, near, 0, 1]),
            false => rng.number(32),
        };
    }
}

/// A section of a report of this kind: two of three are whole.
fn part(rng: &mut Rng, kind: Kind) -> Part {
    let version = rng.pick(&Version::ALL);
    let section = match kind {
        Kind::Any => section(rng, version),
        _ => small_section(rng, version),
    };
    if kind == Kind::Damaged {
        let bytes = case_of(rng, &section).bytes;
        return Part { bytes, adds: None };
    }
    let mut built = section.build();
    if rng.one_in(3) {
        let number = rng.pick(aimed::numbers(version));
        let aimed = aimed::aim(rng, number, &section, &mut built);
        if aimed.is_some() {
            let adds = Some(REFUSED);
            let bytes = built.bytes;
            return Part { bytes, adds };
        }
    }
    Part {
        bytes: built.bytes,
        adds: Some(counts(&section)),
    }
}
