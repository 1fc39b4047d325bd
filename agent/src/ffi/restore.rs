//! The restores that name an edition, as C sees them, and a safe function over each.

use super::editions::Store;
use super::explain::Told;
use super::Answer;
use crate::{Frame, Slot};

/// What every restore is given, beside the image and the frames.
#[derive(Clone, Copy, Debug)]
pub(crate) struct Restore<'a> {
    pub(crate) store: &'a Store,
    pub(crate) edition: u64,
    pub(crate) section: &'a [u8],
    pub(crate) first: u64,
    pub(crate) olds: &'a [u64],
    pub(crate) news: &'a [u64],
    /// The number of the machine.
    pub(crate) machine: u64,
}

/// Who moves frames: the library itself, or the bench controller above it.
#[derive(Clone, Copy, Debug)]
pub(crate) enum Mover {
    Plain,
    Controller,
}

/// The move of one frame, by either of the two.
type MoveFrame = unsafe extern "C" fn(
    store: Store,
    edition: u64,
    section: *const u8,
    length: usize,
    image: *mut u8,
    image_length: usize,
    first: u64,
    olds: *const u64,
    old_count: usize,
    news: *const u64,
    new_count: usize,
    machine: u64,
    frame: Frame,
    registers: *mut u64,
    registers_length: usize,
) -> Answer;

/// The move of a thread, by either of the two, or over a linked section.
type MoveThread = unsafe extern "C" fn(
    store: Store,
    edition: u64,
    section: *const u8,
    length: usize,
    image: *mut u8,
    image_length: usize,
    first: u64,
    olds: *const u64,
    old_count: usize,
    news: *const u64,
    new_count: usize,
    machine: u64,
    frames: *const u64,
    frames_length: usize,
    registers: *mut u64,
    registers_length: usize,
) -> Answer;

extern "C" {
    fn treskibben_edition_relocate(
        store: Store,
        edition: u64,
        section: *const u8,
        length: usize,
        image: *mut u8,
        image_length: usize,
        first: u64,
        olds: *const u64,
        old_count: usize,
        news: *const u64,
        new_count: usize,
        machine: u64,
        frame: Frame,
        registers: *mut u64,
        registers_length: usize,
    ) -> Answer;
    fn treskibben_edition_thread(
        store: Store,
        edition: u64,
        section: *const u8,
        length: usize,
        image: *mut u8,
        image_length: usize,
        first: u64,
        olds: *const u64,
        old_count: usize,
        news: *const u64,
        new_count: usize,
        machine: u64,
        frames: *const u64,
        frames_length: usize,
        registers: *mut u64,
        registers_length: usize,
    ) -> Answer;
    fn treskibben_edition_thread_by_index(
        store: Store,
        edition: u64,
        section: *const u8,
        length: usize,
        image: *mut u8,
        image_length: usize,
        first: u64,
        olds: *const u64,
        old_count: usize,
        news: *const u64,
        new_count: usize,
        machine: u64,
        frames: *const u64,
        frames_length: usize,
        registers: *mut u64,
        registers_length: usize,
        index: *const u64,
        index_length: usize,
    ) -> Answer;
    fn treskibben_edition_linked_thread(
        store: Store,
        edition: u64,
        section: *const u8,
        length: usize,
        image: *mut u8,
        image_length: usize,
        first: u64,
        olds: *const u64,
        old_count: usize,
        news: *const u64,
        new_count: usize,
        machine: u64,
        frames: *const u64,
        frames_length: usize,
        registers: *mut u64,
        registers_length: usize,
    ) -> Answer;
    fn treskibben_edition_explain_address(
        store: Store,
        edition: u64,
        section: *const u8,
        length: usize,
        image: *const u8,
        image_length: usize,
        first: u64,
        olds: *const u64,
        old_count: usize,
        news: *const u64,
        new_count: usize,
        machine: u64,
        frame: Frame,
        registers: *const u64,
        registers_length: usize,
        address: u64,
    ) -> Told;
    fn treskibben_edition_explain_register(
        store: Store,
        edition: u64,
        section: *const u8,
        length: usize,
        image: *const u8,
        image_length: usize,
        first: u64,
        olds: *const u64,
        old_count: usize,
        news: *const u64,
        new_count: usize,
        machine: u64,
        frame: Frame,
        registers: *const u64,
        registers_length: usize,
        number: u64,
    ) -> Told;
    fn treskibben_controller_relocate(
        store: Store,
        edition: u64,
        section: *const u8,
        length: usize,
        image: *mut u8,
        image_length: usize,
        first: u64,
        olds: *const u64,
        old_count: usize,
        news: *const u64,
        new_count: usize,
        machine: u64,
        frame: Frame,
        registers: *mut u64,
        registers_length: usize,
    ) -> Answer;
    fn treskibben_controller_thread(
        store: Store,
        edition: u64,
        section: *const u8,
        length: usize,
        image: *mut u8,
        image_length: usize,
        first: u64,
        olds: *const u64,
        old_count: usize,
        news: *const u64,
        new_count: usize,
        machine: u64,
        frames: *const u64,
        frames_length: usize,
        registers: *mut u64,
        registers_length: usize,
    ) -> Answer;
    fn treskibben_controller_check(section: *const u8, length: usize) -> Answer;
}

impl Mover {
    /// The move of one frame.
    pub(crate) fn relocate(
        self,
        restore: &Restore,
        image: &mut [u8],
        frame: Frame,
        registers: &mut [u64],
    ) -> Answer {
        let call: MoveFrame = match self {
            Mover::Plain => treskibben_edition_relocate,
            Mover::Controller => treskibben_controller_relocate,
        };
        // SAFETY: as in `super::relocate`. The store, a struct of `treskibben.h`, is handed over by value; every
        // content of it may be, and every number of an edition.
        unsafe {
            call(
                restore.store.clone(),
                restore.edition,
                restore.section.as_ptr(),
                restore.section.len(),
                image.as_mut_ptr(),
                image.len(),
                restore.first,
                restore.olds.as_ptr(),
                restore.olds.len(),
                restore.news.as_ptr(),
                restore.news.len(),
                restore.machine,
                frame,
                registers.as_mut_ptr(),
                registers.len(),
            )
        }
    }

    /// The move of a whole thread.
    pub(crate) fn thread(
        self,
        restore: &Restore,
        image: &mut [u8],
        frames: &[u64],
        registers: &mut [u64],
    ) -> Answer {
        let call: MoveThread = match self {
            Mover::Plain => treskibben_edition_thread,
            Mover::Controller => treskibben_controller_thread,
        };
        move_thread(call, restore, image, frames, registers)
    }
}

/// The move of a whole thread over a linked section.
pub(crate) fn linked_thread(
    restore: &Restore,
    image: &mut [u8],
    frames: &[u64],
    registers: &mut [u64],
) -> Answer {
    let call = treskibben_edition_linked_thread;
    move_thread(call, restore, image, frames, registers)
}

/// The move of a whole thread by one of the calls of `treskibben.h` that have these arguments.
fn move_thread(
    call: MoveThread,
    restore: &Restore,
    image: &mut [u8],
    frames: &[u64],
    registers: &mut [u64],
) -> Answer {
    // SAFETY: as in `super::thread`, and of the store as in `Mover::relocate`.
    unsafe {
        call(
            restore.store.clone(),
            restore.edition,
            restore.section.as_ptr(),
            restore.section.len(),
            image.as_mut_ptr(),
            image.len(),
            restore.first,
            restore.olds.as_ptr(),
            restore.olds.len(),
            restore.news.as_ptr(),
            restore.news.len(),
            restore.machine,
            frames.as_ptr(),
            frames.len(),
            registers.as_mut_ptr(),
            registers.len(),
        )
    }
}

/// The move of a whole thread that is handed an index.
pub(crate) fn thread_by_index(
    restore: &Restore,
    image: &mut [u8],
    frames: &[u64],
    registers: &mut [u64],
    index: &[u64],
) -> Answer {
    // SAFETY: as in `super::index::thread`, and of the store as in `Mover::relocate`.
    unsafe {
        treskibben_edition_thread_by_index(
            restore.store.clone(),
            restore.edition,
            restore.section.as_ptr(),
            restore.section.len(),
            image.as_mut_ptr(),
            image.len(),
            restore.first,
            restore.olds.as_ptr(),
            restore.olds.len(),
            restore.news.as_ptr(),
            restore.news.len(),
            restore.machine,
            frames.as_ptr(),
            frames.len(),
            registers.as_mut_ptr(),
            registers.len(),
            index.as_ptr(),
            index.len(),
        )
    }
}

/// The reason of a slot.
pub(crate) fn explain(
    restore: &Restore,
    image: &[u8],
    frame: Frame,
    registers: &[u64],
    slot: Slot,
) -> Told {
    let call = match slot {
        Slot::Address(_) => treskibben_edition_explain_address,
        Slot::Register(_) => treskibben_edition_explain_register,
    };
    let (Slot::Address(asked) | Slot::Register(asked)) = slot;
    // SAFETY: as in `super::explain::explain`, and of the store as in `Mover::relocate`.
    unsafe {
        call(
            restore.store.clone(),
            restore.edition,
            restore.section.as_ptr(),
            restore.section.len(),
            image.as_ptr(),
            image.len(),
            restore.first,
            restore.olds.as_ptr(),
            restore.olds.len(),
            restore.news.as_ptr(),
            restore.news.len(),
            restore.machine,
            frame,
            registers.as_ptr(),
            registers.len(),
            asked,
        )
    }
}

/// The bench controller's check of a section.
pub(crate) fn controller_check(section: &[u8]) -> Answer {
    // SAFETY: as in `super::check`.
    unsafe { treskibben_controller_check(section.as_ptr(), section.len()) }
}
