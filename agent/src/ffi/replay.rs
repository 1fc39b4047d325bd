//! The replay of a trace, as C sees it, and a safe function over it.

use super::editions::Store;
use super::Verdict;
use std::mem::offset_of;

/// What a replay answers: the struct `treskibben_replay_answer`.
#[repr(C)]
pub(crate) struct Replayed {
    pub(crate) verdict: Verdict,
    pub(crate) differs: u64,
    pub(crate) item: u64,
    pub(crate) now: u64,
    pub(crate) value: u64,
}

// The struct lies in memory as that of `treskibben.h` does, whose numbers `ctest/replay.c` asserts.
const _: () = {
    assert!(size_of::<Replayed>() == 48 && offset_of!(Replayed, verdict) == 0);
    assert!(offset_of!(Replayed, differs) == 16 && offset_of!(Replayed, item) == 24);
    assert!(offset_of!(Replayed, now) == 32 && offset_of!(Replayed, value) == 40);
};

extern "C" {
    fn treskibben_edition_replay(
        store: Store,
        edition: u64,
        section: *const u8,
        length: usize,
        image: *mut u8,
        image_length: usize,
        first: u64,
        olds: *const u64,
        old_count: usize,
        news: *const u64,
        new_count: usize,
        trace: *const u8,
        trace_length: usize,
    ) -> Replayed;
}

/// The replay of a trace.
#[allow(clippy::too_many_arguments)] // Those of the function that it calls.
pub(crate) fn replay(
    store: &Store,
    edition: u64,
    section: &[u8],
    image: &mut [u8],
    first: u64,
    olds: &[u64],
    news: &[u64],
    trace: &[u8],
) -> Replayed {
    // SAFETY: of the store as in `super::restore::Mover::relocate`; of the section, the image and the lists of
    // starts as in `super::relocate`. The trace is lent as the section is, and every trace may be.
    unsafe {
        treskibben_edition_replay(
            store.clone(),
            edition,
            section.as_ptr(),
            section.len(),
            image.as_mut_ptr(),
            image.len(),
            first,
            olds.as_ptr(),
            olds.len(),
            news.as_ptr(),
            news.len(),
            trace.as_ptr(),
            trace.len(),
        )
    }
}
