//! The calls on a linked section, as C sees them, and a safe function over each.

use super::{Answer, Verdict};
use std::mem::offset_of;

/// What the question by address over all maps answers: the struct `treskibben_linked_answer`.
#[repr(C)]
pub(crate) struct Found {
    pub(crate) verdict: Verdict,
    pub(crate) map: u64,
    pub(crate) index: u64,
    pub(crate) function: u64,
    pub(crate) sharing: u64,
}

// The struct lies in memory as that of `treskibben.h` does, whose numbers `ctest/linked.c` asserts.
const _: () = {
    assert!(size_of::<Found>() == 48 && offset_of!(Found, map) == 16);
    assert!(offset_of!(Found, index) == 24 && offset_of!(Found, function) == 32);
    assert!(offset_of!(Found, sharing) == 40);
};

extern "C" {
    fn treskibben_linked_maps(
        section: *const u8,
        length: usize,
        list: *mut u64,
        list_length: usize,
    ) -> Answer;
    fn treskibben_linked_find(section: *const u8, length: usize, address: u64) -> Found;
}

/// The maps of a linked section.
pub(crate) fn maps(section: &[u8], list: &mut [u64]) -> Answer {
    let (to, room) = (list.as_mut_ptr(), list.len());
    // SAFETY: of the section as in `super::check`. The list's pointer and number of entries are those of
    // one slice of `u64`, which is borrowed for the whole call, so that its entries can be written, nobody
    // else reads or writes them, and none of their bytes is the section's; the pointer is aligned and
    // never null. The function writes no other memory but its answer. All bits will do for a `u64`.
    unsafe { treskibben_linked_maps(section.as_ptr(), section.len(), to, room) }
}

/// The question by address over all maps.
pub(crate) fn find(section: &[u8], address: u64) -> Found {
    // SAFETY: as in `super::check`. Every address may be asked for. Every field of the answer is a number,
    // for which all bits will do.
    unsafe { treskibben_linked_find(section.as_ptr(), section.len(), address) }
}
