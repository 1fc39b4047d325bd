//! The monthly report: thirteen totals over many sections, of both versions.
//!
//! A section that is refused, by any of 1 to 9, is counted among the sections
//! and among the refused, and adds nothing else. Sums are exact. A section for
//! which one of them would pass 2^64 - 1 is refused by 34 at its position; it
//! adds nothing, not to the sections either, and ends the report. The totals
//! of the sections before it stand.

#[cfg(test)]
mod tests;
#[cfg(test)]
mod tests_orders;
#[cfg(test)]
mod tests_sums;

use crate::program::line;
use crate::relocate::{statepoint_pairs, UNKNOWN};
use crate::section::{read, Section};
use crate::Refusal;

/// How many totals there are.
pub const TOTALS: usize = 13;

/// The longest file that the tool reads as a section, in bytes.
pub const MAX_FILE: usize = 65_536;

/// What a refused section adds: one to the sections and one to the refused.
const REFUSED: [u128; TOTALS] = [1, 1, 0, 0, 0, 0, 0, 0, 0, 0, 0, 0, 0];

/// The totals of the sections so far, all 0 before the first.
#[derive(Clone, Copy, Debug, Default, PartialEq, Eq)]
pub struct Totals {
    /// The sections, refused ones included.
    pub sections: u64,
    /// The refused sections.
    pub refused: u64,
    /// The functions.
    pub functions: u64,
    /// The records.
    pub records: u64,
    /// The records that are statepoints.
    pub statepoints: u64,
    /// The pairs of all statepoints, whatever their form and number.
    pub pairs: u64,
    /// The locations of kinds 1 to 5, of all records.
    pub kinds: [u64; 5],
    /// The sum of the stack sizes that are known.
    pub stack: u64,
    /// The functions whose stack size isn't known.
    pub unknown: u64,
}

impl Totals {
    /// The totals with these numbers, in the order of the lines.
    pub fn of(numbers: [u64; TOTALS]) -> Totals {
        let [sections, refused, functions, records, statepoints, pairs, rest @ ..] = numbers;
        let [kinds @ .., stack, unknown] = rest;
        Totals {
            sections,
            refused,
            functions,
            records,
            statepoints,
            pairs,
            kinds,
            stack,
            unknown,
        }
    }

    /// All thirteen, in the order of the lines.
    pub fn numbers(&self) -> [u64; TOTALS] {
        let [register, direct, indirect, constant, const_index] = self.kinds;
        [
            self.sections,
            self.refused,
            self.functions,
            self.records,
            self.statepoints,
            self.pairs,
            register,
            direct,
            indirect,
            constant,
            const_index,
            self.stack,
            self.unknown,
        ]
    }

    /// These totals and those of another report, added; none where one sum
    /// would pass 2^64 - 1.
    pub fn and(self, other: Totals) -> Option<Totals> {
        self.plus(other.numbers().map(u128::from))
    }

    /// These totals with one number added to each; none where one sum would
    /// pass 2^64 - 1.
    fn plus(self, added: [u128; TOTALS]) -> Option<Totals> {
        let mut sums = self.numbers();
        for (sum, added) in sums.iter_mut().zip(added) {
            *sum = u64::try_from(u128::from(*sum) + added).ok()?;
        }
        Some(Totals::of(sums))
    }
}

/// A whole report: the totals of the sections before the one that 34 was given
/// for, or of all of them.
#[derive(Clone, Copy, Debug, PartialEq, Eq)]
pub struct Report {
    /// Refusal 34, if it was given.
    pub refusal: Option<Refusal>,
    /// The totals.
    pub totals: Totals,
}

/// Adds one section to the totals of those before it, or gives refusal 34 at
/// its position, which is the number of sections so far.
pub fn add(totals: Totals, section: &[u8]) -> Result<Totals, Refusal> {
    add_file(totals, Some(section))
}

/// The report of a list of sections, begun with totals of sections before it.
pub fn report<'a>(before: Totals, sections: impl IntoIterator<Item = &'a [u8]>) -> Report {
    report_files(before, sections.into_iter().map(Some))
}

/// The bytes that the tool writes for the files that its arguments name, each
/// as what it holds, or none where it can't be read.
///
/// A file of over 65,536 bytes counts as refused, as does one that can't be
/// read. There are nine lines, or one where 34 is given, each ended by a
/// newline.
pub fn run(files: &[Option<&[u8]>]) -> Vec<u8> {
    let is_short = |bytes: &&[u8]| bytes.len() <= MAX_FILE;
    let files = files.iter().map(|file| file.filter(is_short));
    lines(report_files(Totals::default(), files))
}

/// The lines of a report: those of its nine totals, or the refusal's alone.
pub fn lines(report: Report) -> Vec<u8> {
    if let Some(refusal) = report.refusal {
        return line(refusal);
    }
    let totals = report.totals;
    let lines = [
        ("sections", vec![totals.sections]),
        ("refused", vec![totals.refused]),
        ("functions", vec![totals.functions]),
        ("records", vec![totals.records]),
        ("statepoints", vec![totals.statepoints]),
        ("pairs", vec![totals.pairs]),
        ("kinds", totals.kinds.to_vec()),
        ("stack", vec![totals.stack]),
        ("unknown", vec![totals.unknown]),
    ];
    let mut written = String::new();
    for (name, numbers) in lines {
        written.push_str(name);
        for number in numbers {
            written.push_str(&format!(" {number}"));
        }
        written.push('\n');
    }
    written.into_bytes()
}

/// The report of a list of files; none stands for one that can't be read.
fn report_files<'a>(before: Totals, files: impl Iterator<Item = Option<&'a [u8]>>) -> Report {
    let mut report = Report {
        refusal: None,
        totals: before,
    };
    for file in files {
        match add_file(report.totals, file) {
            Ok(totals) => report.totals = totals,
            Err(refusal) => {
                report.refusal = Some(refusal);
                break;
            }
        }
    }
    report
}

/// Adds one file, or gives refusal 34 at its position.
fn add_file(totals: Totals, file: Option<&[u8]>) -> Result<Totals, Refusal> {
    let section = file.and_then(|section| read(section).ok());
    let added = section.map_or(REFUSED, |section| accepted(&section));
    totals.plus(added).ok_or(Refusal {
        number: 34,
        place: totals.sections,
    })
}

/// What an accepted section adds, as whole numbers without a limit.
fn accepted(section: &Section) -> [u128; TOTALS] {
    let pairs = section.records.iter().filter_map(statepoint_pairs);
    let pairs: Vec<usize> = pairs.map(<[_]>::len).collect();
    let of_kind = |kind| {
        let locations = section.records.iter().flat_map(|record| &record.locations);
        locations.filter(|location| location.kind == kind).count() as u128
    };
    let sizes = section.functions.iter().map(|own| own.stack_size);
    let (unknown, known): (Vec<u64>, Vec<u64>) = sizes.partition(|&size| size == UNKNOWN);
    [
        1,
        0,
        section.functions.len() as u128,
        section.records.len() as u128,
        pairs.len() as u128,
        pairs.iter().sum::<usize>() as u128,
        of_kind(1),
        of_kind(2),
        of_kind(3),
        of_kind(4),
        of_kind(5),
        known.into_iter().map(u128::from).sum(),
        unknown.len() as u128,
    ]
}
