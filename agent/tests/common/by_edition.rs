//! The calls that name an edition, as C has them: they take every store, and every number for a machine.
#![allow(dead_code)] // Not every test makes all of them.

use super::stored::Stored;
use super::stores::Raw;
use crate::calls::Call;
use treskibben::Frame;

/// The struct `treskibben_answer` of `treskibben.h`: number, place and value.
#[repr(C)]
struct Answer([u64; 3]);

/// The struct `treskibben_reason` of `treskibben.h`.
#[repr(C)]
struct Told([u64; 6]);

extern "C" {
    fn treskibben_edition_relocate(
        store: Raw,
        edition: u64,
        section: *const u8,
        length: usize,
        image: *mut u8,
        image_length: usize,
        first: u64,
        olds: *const u64,
        old_count: usize,
        news: *const u64,
        new_count: usize,
        machine: u64,
        frame: Frame,
        registers: *mut u64,
        registers_length: usize,
    ) -> Answer;
    fn treskibben_edition_thread(
        store: Raw,
        edition: u64,
        section: *const u8,
        length: usize,
        image: *mut u8,
        image_length: usize,
        first: u64,
        olds: *const u64,
        old_count: usize,
        news: *const u64,
        new_count: usize,
        machine: u64,
        frames: *const u64,
        frames_length: usize,
        registers: *mut u64,
        registers_length: usize,
    ) -> Answer;
    fn treskibben_edition_thread_by_index(
        store: Raw,
        edition: u64,
        section: *const u8,
        length: usize,
        image: *mut u8,
        image_length: usize,
        first: u64,
        olds: *const u64,
        old_count: usize,
        news: *const u64,
        new_count: usize,
        machine: u64,
        frames: *const u64,
        frames_length: usize,
        registers: *mut u64,
        registers_length: usize,
        index: *const u64,
        index_length: usize,
    ) -> Answer;
    fn treskibben_edition_linked_thread(
        store: Raw,
        edition: u64,
        section: *const u8,
        length: usize,
        image: *mut u8,
        image_length: usize,
        first: u64,
        olds: *const u64,
        old_count: usize,
        news: *const u64,
        new_count: usize,
        machine: u64,
        frames: *const u64,
        frames_length: usize,
        registers: *mut u64,
        registers_length: usize,
    ) -> Answer;
    fn treskibben_edition_explain_address(
        store: Raw,
        edition: u64,
        section: *const u8,
        length: usize,
        image: *const u8,
        image_length: usize,
        first: u64,
        olds: *const u64,
        old_count: usize,
        news: *const u64,
        new_count: usize,
        machine: u64,
        frame: Frame,
        registers: *const u64,
        registers_length: usize,
        address: u64,
    ) -> Told;
    fn treskibben_edition_explain_register(
        store: Raw,
        edition: u64,
        section: *const u8,
        length: usize,
        image: *const u8,
        image_length: usize,
        first: u64,
        olds: *const u64,
        old_count: usize,
        news: *const u64,
        new_count: usize,
        machine: u64,
        frame: Frame,
        registers: *const u64,
        registers_length: usize,
        number: u64,
    ) -> Told;
    fn treskibben_edition_explain_frame(
        store: Raw,
        edition: u64,
        section: *const u8,
        length: usize,
        image: *const u8,
        image_length: usize,
        first: u64,
        olds: *const u64,
        old_count: usize,
        news: *const u64,
        new_count: usize,
        machine: u64,
        frame: Frame,
        registers: *const u64,
        registers_length: usize,
        rows: *mut u64,
        rows_length: usize,
    ) -> Answer;
    fn treskibben_edition_explain_thread(
        store: Raw,
        edition: u64,
        section: *const u8,
        length: usize,
        image: *const u8,
        image_length: usize,
        first: u64,
        olds: *const u64,
        old_count: usize,
        news: *const u64,
        new_count: usize,
        machine: u64,
        frames: *const u64,
        frames_length: usize,
        registers: *const u64,
        registers_length: usize,
        rows: *mut u64,
        rows_length: usize,
    ) -> Answer;
}

/// The move of one frame: number, place and value.
pub fn relocate<F>(
    stored: &Stored,
    call: &Call<F>,
    frame: Frame,
    image: &mut [u8],
    registers: &mut [u64],
) -> [u64; 3] {
    // SAFETY: each pointer and length are those of one slice, borrowed for the whole call, the image's
    // and the registers' alone for writing; the declaration is that of `treskibben.h`.
    let answer = unsafe {
        treskibben_edition_relocate(
            stored.c(),
            stored.edition,
            call.section.as_ptr(),
            call.section.len(),
            image.as_mut_ptr(),
            image.len(),
            call.first,
            call.olds.as_ptr(),
            call.olds.len(),
            call.news.as_ptr(),
            call.news.len(),
            call.machine,
            frame,
            registers.as_mut_ptr(),
            registers.len(),
        )
    };
    answer.0
}

/// The move of a thread with these frames.
pub fn thread<F>(
    stored: &Stored,
    call: &Call<F>,
    frames: &[u64],
    image: &mut [u8],
    registers: &mut [u64],
) -> [u64; 3] {
    // SAFETY: as in `relocate`. The frames are one more list.
    let answer = unsafe {
        treskibben_edition_thread(
            stored.c(),
            stored.edition,
            call.section.as_ptr(),
            call.section.len(),
            image.as_mut_ptr(),
            image.len(),
            call.first,
            call.olds.as_ptr(),
            call.olds.len(),
            call.news.as_ptr(),
            call.news.len(),
            call.machine,
            frames.as_ptr(),
            frames.len(),
            registers.as_mut_ptr(),
            registers.len(),
        )
    };
    answer.0
}

/// The move of a thread with these frames and this index.
pub fn thread_by_index<F>(
    stored: &Stored,
    call: &Call<F>,
    frames: &[u64],
    index: &[u64],
    image: &mut [u8],
    registers: &mut [u64],
) -> [u64; 3] {
    // SAFETY: as in `relocate`. The frames and the index are two more lists.
    let answer = unsafe {
        treskibben_edition_thread_by_index(
            stored.c(),
            stored.edition,
            call.section.as_ptr(),
            call.section.len(),
            image.as_mut_ptr(),
            image.len(),
            call.first,
            call.olds.as_ptr(),
            call.olds.len(),
            call.news.as_ptr(),
            call.news.len(),
            call.machine,
            frames.as_ptr(),
            frames.len(),
            registers.as_mut_ptr(),
            registers.len(),
            index.as_ptr(),
            index.len(),
        )
    };
    answer.0
}

/// The move of a thread with these frames over a linked section.
pub fn linked_thread<F>(
    stored: &Stored,
    call: &Call<F>,
    frames: &[u64],
    image: &mut [u8],
    registers: &mut [u64],
) -> [u64; 3] {
    // SAFETY: as in `thread`.
    let answer = unsafe {
        treskibben_edition_linked_thread(
            stored.c(),
            stored.edition,
            call.section.as_ptr(),
            call.section.len(),
            image.as_mut_ptr(),
            image.len(),
            call.first,
            call.olds.as_ptr(),
            call.olds.len(),
            call.news.as_ptr(),
            call.news.len(),
            call.machine,
            frames.as_ptr(),
            frames.len(),
            registers.as_mut_ptr(),
            registers.len(),
        )
    };
    answer.0
}

/// The reason of the slot at an address, or of a register: the six numbers of the struct.
pub fn explain<F>(
    stored: &Stored,
    call: &Call<F>,
    frame: Frame,
    slot: treskibben::Slot,
) -> [u64; 6] {
    use treskibben::Slot;
    let explain = match slot {
        Slot::Address(_) => treskibben_edition_explain_address,
        Slot::Register(_) => treskibben_edition_explain_register,
    };
    let (Slot::Address(asked) | Slot::Register(asked)) = slot;
    // SAFETY: as in `relocate`, but that the call only reads.
    let told = unsafe {
        explain(
            stored.c(),
            stored.edition,
            call.section.as_ptr(),
            call.section.len(),
            call.image.as_ptr(),
            call.image.len(),
            call.first,
            call.olds.as_ptr(),
            call.olds.len(),
            call.news.as_ptr(),
            call.news.len(),
            call.machine,
            frame,
            call.registers.as_ptr(),
            call.registers.len(),
            asked,
        )
    };
    told.0
}

/// The rows of a frame: number, place and value.
pub fn explain_frame<F>(
    stored: &Stored,
    call: &Call<F>,
    frame: Frame,
    rows: &mut [u64],
) -> [u64; 3] {
    // SAFETY: as in `relocate`, but that the rows alone are written, which are one more slice.
    let answer = unsafe {
        treskibben_edition_explain_frame(
            stored.c(),
            stored.edition,
            call.section.as_ptr(),
            call.section.len(),
            call.image.as_ptr(),
            call.image.len(),
            call.first,
            call.olds.as_ptr(),
            call.olds.len(),
            call.news.as_ptr(),
            call.news.len(),
            call.machine,
            frame,
            call.registers.as_ptr(),
            call.registers.len(),
            rows.as_mut_ptr(),
            rows.len(),
        )
    };
    answer.0
}

/// The rows of a thread with these frames.
pub fn explain_thread<F>(
    stored: &Stored,
    call: &Call<F>,
    frames: &[u64],
    rows: &mut [u64],
) -> [u64; 3] {
    // SAFETY: as in `explain_frame`. The frames are one more list.
    let answer = unsafe {
        treskibben_edition_explain_thread(
            stored.c(),
            stored.edition,
            call.section.as_ptr(),
            call.section.len(),
            call.image.as_ptr(),
            call.image.len(),
            call.first,
            call.olds.as_ptr(),
            call.olds.len(),
            call.news.as_ptr(),
            call.news.len(),
            call.machine,
            frames.as_ptr(),
            frames.len(),
            call.registers.as_ptr(),
            call.registers.len(),
            rows.as_mut_ptr(),
            rows.len(),
        )
    };
    answer.0
}
