//! The calls of the monthly report, as C sees them, and a safe function over each.

use super::Verdict;
use crate::report::{Kinds, Totals};
use std::mem::offset_of;

/// What a report answers: the struct `treskibben_report_answer`. On a refusal the totals are those that were
/// handed in.
#[repr(C)]
pub(crate) struct Reported {
    pub(crate) verdict: Verdict,
    pub(crate) totals: Totals,
}

// The structs lie in memory as those of `treskibben.h` do, whose numbers `ctest/report.c` asserts.
const _: () = {
    assert!(size_of::<Kinds>() == 40 && offset_of!(Kinds, register) == 0);
    assert!(offset_of!(Kinds, direct) == 8 && offset_of!(Kinds, indirect) == 16);
    assert!(offset_of!(Kinds, constant) == 24 && offset_of!(Kinds, const_index) == 32);
    assert!(size_of::<Totals>() == 104 && offset_of!(Totals, sections) == 0);
    assert!(offset_of!(Totals, refused) == 8 && offset_of!(Totals, functions) == 16);
    assert!(offset_of!(Totals, records) == 24 && offset_of!(Totals, statepoints) == 32);
    assert!(offset_of!(Totals, pairs) == 40 && offset_of!(Totals, kinds) == 48);
    assert!(offset_of!(Totals, stack) == 88 && offset_of!(Totals, unknown) == 96);
    assert!(size_of::<Reported>() == 120 && offset_of!(Reported, totals) == 16);
};

extern "C" {
    fn treskibben_report_add(section: *const u8, length: usize, totals: Totals) -> Reported;
    fn treskibben_report_join(first: Totals, second: Totals) -> Reported;
}

/// One section more.
pub(crate) fn add(section: &[u8], totals: Totals) -> Reported {
    // SAFETY: of the section as in the check of a section. The totals, a struct of `treskibben.h`, are handed
    // over by value; every content of them may be. The function reads and writes no other memory but its
    // answer, every field of which is a number, for which all bits will do.
    unsafe { treskibben_report_add(section.as_ptr(), section.len(), totals) }
}

/// The report of all sections of two.
pub(crate) fn join(first: Totals, second: Totals) -> Reported {
    // SAFETY: the two are handed over by value as in `add`; the function is lent nothing.
    unsafe { treskibben_report_join(first, second) }
}
