//! The monthly report: totals over many sections, of versions 3 and 1.
//!
//! [`Totals`] begin at 0, and [`Totals::add`] adds one section. A section that is refused, by any of 1 to 9,
//! is counted: it adds one to the sections and one to the refused, and nothing else. Sums are exact: a section
//! for which a total would pass 2^64 - 1 is refused by 34 at its position, adds nothing, and ends the report.
//!
//! It is proved that the totals are the sums of what each section adds; that the order of sections doesn't
//! alter them, provided none gave 34; that where one order gives no 34, no order does; and that
//! [`Totals::join`] of two reports is the report of all their sections. So a report can be made on many
//! threads or many machines, and the parts added in any order.
//!
//! ```
//! use treskibben::report::Totals;
//! # fn main() -> Result<(), treskibben::Refusal> {
//! // A section of no functions, no constants and no records, and one with a byte too many.
//! let empty = [3, 0, 0, 0, 0, 0, 0, 0, 0, 0, 0, 0, 0, 0, 0, 0];
//! let mut totals = Totals::default();
//! totals.add(&empty)?;
//! totals.add(&[&empty[..], &[0]].concat())?;
//! assert_eq!((totals.sections, totals.refused, totals.functions), (2, 1, 0));
//!
//! let other = Totals::of([empty, empty, empty])?;
//! totals.join(other)?;
//! assert_eq!((totals.sections, totals.refused), (5, 1));
//! assert!(totals.to_string().starts_with("sections 5\nrefused 1\nfunctions 0\n"));
//! # Ok(())
//! # }
//! ```

use crate::ffi::report as ffi;
use crate::Refusal;
use std::fmt;

/// The locations of each kind.
#[derive(Clone, Copy, Debug, Default, PartialEq, Eq, Hash)]
#[repr(C)]
pub struct Kinds {
    /// Kind 1: the value is in a register.
    pub register: u64,
    /// Kind 2: the value is a register plus an offset.
    pub direct: u64,
    /// Kind 3: the value is in memory at a register plus an offset.
    pub indirect: u64,
    /// Kind 4: the value is the offset.
    pub constant: u64,
    /// Kind 5: the value is one of the section's constants.
    pub const_index: u64,
}

impl Kinds {
    /// All five, from kind 1 on.
    pub fn numbers(&self) -> [u64; 5] {
        [
            self.register,
            self.direct,
            self.indirect,
            self.constant,
            self.const_index,
        ]
    }
}

/// The totals of a report. The default is all 0, with which a report begins.
///
/// As text they are the nine lines of the report, each ended by a newline.
#[derive(Clone, Copy, Debug, Default, PartialEq, Eq, Hash)]
#[repr(C)]
pub struct Totals {
    /// The sections, refused ones included.
    pub sections: u64,
    /// The refused among them, which add nothing else.
    pub refused: u64,
    /// The functions, with records and without.
    pub functions: u64,
    /// The records.
    pub records: u64,
    /// The records that are statepoints.
    pub statepoints: u64,
    /// The pairs of all statepoints, null ones and ones of wrong form too. A pair counts one, however many
    /// pointers it holds.
    pub pairs: u64,
    /// The locations of each kind, of all records.
    pub kinds: Kinds,
    /// The sum of the stack sizes that are known.
    pub stack: u64,
    /// The functions whose stack size isn't known.
    pub unknown: u64,
}

impl Totals {
    /// The totals of these sections, in this order. None after one with 34 is taken from the list.
    ///
    /// # Errors
    ///
    /// 34 at the position of the first section for which a total would pass 2^64 - 1. To keep the totals of the
    /// sections before it, use [`add_all`](Totals::add_all).
    pub fn of<S: AsRef<[u8]>>(sections: impl IntoIterator<Item = S>) -> Result<Totals, Refusal> {
        let mut totals = Totals::default();
        totals.add_all(sections).map(|()| totals)
    }

    /// Adds one section: what it has if it is accepted, and else one refused section.
    ///
    /// # Errors
    ///
    /// 34 where a total would pass 2^64 - 1, which is itself allowed. The place is the section's position, the
    /// number of sections before it. The totals are as they were then.
    ///
    /// ```
    /// use treskibben::report::Totals;
    /// let empty = [3, 0, 0, 0, 0, 0, 0, 0, 0, 0, 0, 0, 0, 0, 0, 0];
    /// let mut totals = Totals { sections: u64::MAX - 1, ..Totals::default() };
    /// assert_eq!(totals.add(&empty), Ok(()));
    /// assert_eq!(totals.sections, u64::MAX);
    /// let refusal = totals.add(&empty).unwrap_err();
    /// assert_eq!((refusal.number(), refusal.place()), (34, u64::MAX));
    /// assert_eq!(totals.sections, u64::MAX);
    /// ```
    pub fn add(&mut self, section: &[u8]) -> Result<(), Refusal> {
        self.take(ffi::add(section, *self))
    }

    /// Adds sections one after the other, up to the first that gives 34. Those before it stay added, and none
    /// after it is taken from the list.
    ///
    /// # Errors
    ///
    /// 34, as by [`add`](Totals::add).
    pub fn add_all<S: AsRef<[u8]>>(
        &mut self,
        sections: impl IntoIterator<Item = S>,
    ) -> Result<(), Refusal> {
        let mut sections = sections.into_iter();
        sections.try_for_each(|section| self.add(section.as_ref()))
    }

    /// Adds the totals of another report, of other sections.
    ///
    /// # Errors
    ///
    /// 34 at 0 where a total would pass 2^64 - 1. The totals are as they were then.
    pub fn join(&mut self, other: Totals) -> Result<(), Refusal> {
        self.take(ffi::join(*self, other))
    }

    /// What the library answers: on 34 its totals are those that were handed in.
    fn take(&mut self, told: ffi::Reported) -> Result<(), Refusal> {
        *self = told.totals;
        told.verdict.accepted()
    }
}

impl fmt::Display for Totals {
    fn fmt(&self, f: &mut fmt::Formatter<'_>) -> fmt::Result {
        writeln!(f, "sections {}", self.sections)?;
        writeln!(f, "refused {}", self.refused)?;
        writeln!(f, "functions {}", self.functions)?;
        writeln!(f, "records {}", self.records)?;
        writeln!(f, "statepoints {}", self.statepoints)?;
        writeln!(f, "pairs {}", self.pairs)?;
        let [register, direct, indirect, constant, const_index] = self.kinds.numbers();
        let kinds = format_args!("{register} {direct} {indirect} {constant} {const_index}");
        writeln!(f, "kinds {kinds}")?;
        writeln!(f, "stack {}", self.stack)?;
        writeln!(f, "unknown {}", self.unknown)
    }
}
