//! The calls that tell of all slots of a frame or of a thread, as C sees them, and a safe function over each.

use super::editions::Store;
use super::restore::Restore;
use super::Answer;
use crate::Frame;

/// How many numbers are written for a pointer.
pub(crate) const ROW: usize = 16;

extern "C" {
    fn treskibben_edition_explain_frame(
        store: Store,
        edition: u64,
        section: *const u8,
        length: usize,
        image: *const u8,
        image_length: usize,
        first: u64,
        olds: *const u64,
        old_count: usize,
        news: *const u64,
        new_count: usize,
        machine: u64,
        frame: Frame,
        registers: *const u64,
        registers_length: usize,
        rows: *mut u64,
        rows_length: usize,
    ) -> Answer;
    fn treskibben_edition_explain_thread(
        store: Store,
        edition: u64,
        section: *const u8,
        length: usize,
        image: *const u8,
        image_length: usize,
        first: u64,
        olds: *const u64,
        old_count: usize,
        news: *const u64,
        new_count: usize,
        machine: u64,
        frames: *const u64,
        frames_length: usize,
        registers: *const u64,
        registers_length: usize,
        rows: *mut u64,
        rows_length: usize,
    ) -> Answer;
}

/// The rows of all pointers of a frame.
pub(crate) fn frame(
    restore: &Restore,
    image: &[u8],
    frame: Frame,
    registers: &[u64],
    rows: &mut [u64],
) -> Answer {
    // SAFETY: as in `super::explain::explain`, and of the store as in `super::restore::Mover::relocate`. The
    // rows' pointer and length are those of one slice of `u64`, which is borrowed for the whole call, so that
    // its numbers can be written, nobody else reads or writes them, and no byte of theirs is that of another
    // slice. The function writes no other memory but its answer. All bits will do for a `u64`.
    unsafe {
        treskibben_edition_explain_frame(
            restore.store.clone(),
            restore.edition,
            restore.section.as_ptr(),
            restore.section.len(),
            image.as_ptr(),
            image.len(),
            restore.first,
            restore.olds.as_ptr(),
            restore.olds.len(),
            restore.news.as_ptr(),
            restore.news.len(),
            restore.machine,
            frame,
            registers.as_ptr(),
            registers.len(),
            rows.as_mut_ptr(),
            rows.len(),
        )
    }
}

/// The rows of all pointers of a thread.
pub(crate) fn thread(
    restore: &Restore,
    image: &[u8],
    frames: &[u64],
    registers: &[u64],
    rows: &mut [u64],
) -> Answer {
    // SAFETY: as in `frame`. The frames are one more list, of any length: it is lent as those of the starts are.
    unsafe {
        treskibben_edition_explain_thread(
            restore.store.clone(),
            restore.edition,
            restore.section.as_ptr(),
            restore.section.len(),
            image.as_ptr(),
            image.len(),
            restore.first,
            restore.olds.as_ptr(),
            restore.olds.len(),
            restore.news.as_ptr(),
            restore.news.len(),
            restore.machine,
            frames.as_ptr(),
            frames.len(),
            registers.as_ptr(),
            registers.len(),
            rows.as_mut_ptr(),
            rows.len(),
        )
    }
}
