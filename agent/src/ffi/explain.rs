//! The calls that tell why a slot moves or does not, as C sees them, and a safe function over both.

use super::Verdict;
use crate::{Frame, Slot};
use std::mem::offset_of;

/// What is answered for a slot: the struct `treskibben_reason`. The verdict is that of the frame, and not 0
/// for the refused reason alone.
#[repr(C)]
pub(crate) struct Told {
    pub(crate) reason: u64,
    pub(crate) verdict: Verdict,
    pub(crate) pair: u64,
    pub(crate) old_base: u64,
    pub(crate) new_base: u64,
}

// The struct lies in memory as that of `treskibben.h` does, whose numbers `ctest/explain.c` asserts.
const _: () = {
    assert!(size_of::<Told>() == 48 && offset_of!(Told, reason) == 0);
    assert!(offset_of!(Told, verdict) == 8 && offset_of!(Told, pair) == 24);
    assert!(offset_of!(Told, old_base) == 32 && offset_of!(Told, new_base) == 40);
};

extern "C" {
    fn treskibben_explain_address(
        section: *const u8,
        length: usize,
        image: *const u8,
        image_length: usize,
        first: u64,
        olds: *const u64,
        old_count: usize,
        news: *const u64,
        new_count: usize,
        machine: u64,
        frame: Frame,
        registers: *const u64,
        registers_length: usize,
        address: u64,
    ) -> Told;
    fn treskibben_explain_register(
        section: *const u8,
        length: usize,
        image: *const u8,
        image_length: usize,
        first: u64,
        olds: *const u64,
        old_count: usize,
        news: *const u64,
        new_count: usize,
        machine: u64,
        frame: Frame,
        registers: *const u64,
        registers_length: usize,
        number: u64,
    ) -> Told;
}

/// The reason of a slot, on the machine of this number.
#[allow(clippy::too_many_arguments)] // Those of the functions that it calls.
pub(crate) fn explain(
    section: &[u8],
    image: &[u8],
    first: u64,
    olds: &[u64],
    news: &[u64],
    machine: u64,
    frame: Frame,
    registers: &[u64],
    slot: Slot,
) -> Told {
    let call = match slot {
        Slot::Address(_) => treskibben_explain_address,
        Slot::Register(_) => treskibben_explain_register,
    };
    let (Slot::Address(asked) | Slot::Register(asked)) = slot;
    // SAFETY: each pointer and length are those of one slice, which is borrowed for the whole call: the bytes
    // and numbers can be read and nobody writes them meanwhile. The pointer of a slice is aligned and never
    // null, also where the slice is empty. The functions read no other memory, write none but their answer,
    // so that the slices may share bytes, and keep no pointer. Lists of any lengths, every first address,
    // every number of a machine, every frame and every slot may be asked for. Every field of the answer is a
    // number, for which all bits will do. Both declarations above are those of `treskibben.h`.
    unsafe {
        call(
            section.as_ptr(),
            section.len(),
            image.as_ptr(),
            image.len(),
            first,
            olds.as_ptr(),
            olds.len(),
            news.as_ptr(),
            news.len(),
            machine,
            frame,
            registers.as_ptr(),
            registers.len(),
            asked,
        )
    }
}
