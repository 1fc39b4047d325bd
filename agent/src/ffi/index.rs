//! The calls with an address index, as C sees them, and a safe function over each.

use super::{Answer, Found};

extern "C" {
    fn treskibben_fill_index(
        section: *const u8,
        length: usize,
        index: *mut u64,
        index_length: usize,
    ) -> Answer;
    fn treskibben_find_by_index(
        section: *const u8,
        length: usize,
        index: *const u64,
        index_length: usize,
        address: u64,
    ) -> Found;
    fn treskibben_find_all_by_index(
        section: *const u8,
        length: usize,
        index: *const u64,
        index_length: usize,
        addresses: *const u64,
        address_count: usize,
        answers: *mut u64,
        answers_length: usize,
    ) -> Answer;
    fn treskibben_thread_by_index(
        section: *const u8,
        length: usize,
        image: *mut u8,
        image_length: usize,
        first: u64,
        olds: *const u64,
        old_count: usize,
        news: *const u64,
        new_count: usize,
        machine: u64,
        frames: *const u64,
        frames_length: usize,
        registers: *mut u64,
        registers_length: usize,
        index: *const u64,
        index_length: usize,
    ) -> Answer;
}

/// Filling an index.
pub(crate) fn fill(section: &[u8], index: &mut [u64]) -> Answer {
    let (to, room) = (index.as_mut_ptr(), index.len());
    // SAFETY: of the section as in `super::check`. The list's pointer and number of entries are those of
    // one slice of `u64`, which is borrowed for the whole call, so that its entries can be written, nobody
    // else reads or writes them, and none of their bytes is the section's; the pointer is aligned and
    // never null. The function writes no other memory but its answer. All bits will do for a `u64`.
    unsafe { treskibben_fill_index(section.as_ptr(), section.len(), to, room) }
}

/// The question by address through an index.
pub(crate) fn find(section: &[u8], index: &[u64], address: u64) -> Found {
    let (entries, count) = (index.as_ptr(), index.len());
    // SAFETY: as in `super::check`. The index's pointer and number of entries, too, are those of one slice,
    // which is borrowed for the whole call; every list may be lent, and every address asked for.
    unsafe { treskibben_find_by_index(section.as_ptr(), section.len(), entries, count, address) }
}

/// Many questions by address through an index.
pub(crate) fn find_all(
    section: &[u8],
    index: &[u64],
    addresses: &[u64],
    answers: &mut [u64],
) -> Answer {
    let (to, room) = (answers.as_mut_ptr(), answers.len());
    // SAFETY: of section and index as in `find`, and of the addresses as of the index: the two may share
    // their bytes, as they are only read. Of the answers as of the list in `fill`.
    unsafe {
        treskibben_find_all_by_index(
            section.as_ptr(),
            section.len(),
            index.as_ptr(),
            index.len(),
            addresses.as_ptr(),
            addresses.len(),
            to,
            room,
        )
    }
}

/// The move of a whole thread that is handed an index.
#[allow(clippy::too_many_arguments)] // Those of the function that it calls.
pub(crate) fn thread(
    section: &[u8],
    image: &mut [u8],
    first: u64,
    olds: &[u64],
    news: &[u64],
    machine: u64,
    frames: &[u64],
    registers: &mut [u64],
    index: &[u64],
) -> Answer {
    let (stack, bytes) = (image.as_mut_ptr(), image.len());
    // SAFETY: as in `super::thread`. The index is one more list, of any length: it is lent as those of the
    // starts are.
    unsafe {
        treskibben_thread_by_index(
            section.as_ptr(),
            section.len(),
            stack,
            bytes,
            first,
            olds.as_ptr(),
            olds.len(),
            news.as_ptr(),
            news.len(),
            machine,
            frames.as_ptr(),
            frames.len(),
            registers.as_mut_ptr(),
            registers.len(),
            index.as_ptr(),
            index.len(),
        )
    }
}
