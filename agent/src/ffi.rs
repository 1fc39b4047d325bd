//! The functions of the proved library, as C sees them, and a safe function over each.
//!
//! This module has all the unsafe code of the crate. The proofs of the library cover every byte
//! slice, so a safe function here has nothing to test; it only has to hand over a true slice.

use crate::{Frame, Refusal};
use std::mem::offset_of;

pub(crate) mod editions;
pub(crate) mod explain;
pub(crate) mod flat;
pub(crate) mod index;
pub(crate) mod linked;
pub(crate) mod replay;
pub(crate) mod report;
pub(crate) mod restore;
pub(crate) mod rows;
#[cfg(test)]
mod tests;

/// The number and the place that every answer begins with, both 0 where the call is accepted.
#[repr(C)]
pub(crate) struct Verdict {
    number: u64,
    place: u64,
}

impl Verdict {
    /// The refusal, if it is one.
    pub(crate) fn accepted(&self) -> Result<(), Refusal> {
        match self.number {
            0 => Ok(()),
            number => Err(Refusal::new(number, self.place)),
        }
    }
}

/// What the check, the conversions and the moves answer: the struct `treskibben_answer` of `treskibben.h`.
#[repr(C)]
pub(crate) struct Answer {
    verdict: Verdict,
    value: u64,
}

impl Answer {
    /// The value of an accepted call, or the refusal.
    pub(crate) fn outcome(self) -> Result<u64, Refusal> {
        self.verdict.accepted().map(|()| self.value)
    }

    /// The answer of an accepted call.
    #[cfg(test)]
    pub(crate) fn accepted(value: u64) -> Answer {
        let (number, place) = (0, 0);
        let verdict = Verdict { number, place };
        Answer { verdict, value }
    }

    /// The answer of a refused call.
    #[cfg(test)]
    pub(crate) fn refused(number: u64, place: u64) -> Answer {
        let verdict = Verdict { number, place };
        Answer { verdict, value: 0 }
    }
}

/// What the questions by address and by function and offset answer: the struct `treskibben_find_answer`.
#[repr(C)]
pub(crate) struct Found {
    pub(crate) verdict: Verdict,
    pub(crate) index: u64,
    pub(crate) function: u64,
    pub(crate) sharing: u64,
}

/// What the question by record number answers: the struct `treskibben_record_answer`.
#[repr(C)]
pub(crate) struct Stands {
    pub(crate) verdict: Verdict,
    pub(crate) first: u64,
    pub(crate) length: u64,
}

/// What the question by location number answers: the struct `treskibben_location_answer`.
#[repr(C)]
pub(crate) struct Location {
    pub(crate) verdict: Verdict,
    pub(crate) constant: u64,
    pub(crate) offset: i32,
    pub(crate) size: u16,
    pub(crate) register: u16,
    pub(crate) kind: u8,
    pub(crate) content: u8,
}

/// What the question by live-out number answers: the struct `treskibben_live_out_answer`.
#[repr(C)]
pub(crate) struct LiveOut {
    pub(crate) verdict: Verdict,
    pub(crate) register: u16,
    pub(crate) size: u8,
}

// The structs lie in memory as those of `treskibben.h` do, whose numbers `ctest/questions.c` asserts.
const _: () = {
    assert!(size_of::<Verdict>() == 16 && offset_of!(Verdict, place) == 8);
    assert!(size_of::<Answer>() == 24 && offset_of!(Answer, value) == 16);
    assert!(size_of::<Found>() == 40 && offset_of!(Found, index) == 16);
    assert!(offset_of!(Found, function) == 24 && offset_of!(Found, sharing) == 32);
    assert!(size_of::<Stands>() == 32 && offset_of!(Stands, first) == 16);
    assert!(offset_of!(Stands, length) == 24);
    assert!(size_of::<Location>() == 40 && offset_of!(Location, constant) == 16);
    assert!(offset_of!(Location, offset) == 24 && offset_of!(Location, size) == 28);
    assert!(offset_of!(Location, register) == 30 && offset_of!(Location, kind) == 32);
    assert!(offset_of!(Location, content) == 33);
    assert!(size_of::<LiveOut>() == 24 && offset_of!(LiveOut, register) == 16);
    assert!(offset_of!(LiveOut, size) == 18);
    assert!(size_of::<Frame>() == 16 && offset_of!(Frame, address) == 0);
    assert!(offset_of!(Frame, function) == 8);
    assert!(align_of::<Frame>() == align_of::<u64>());
};

extern "C" {
    fn treskibben_version() -> u32;
    fn treskibben_version_3() -> u32;
    fn treskibben_check(section: *const u8, length: usize) -> Answer;
    fn treskibben_find(section: *const u8, length: usize, address: u64) -> Found;
    fn treskibben_find_in_function(
        section: *const u8,
        length: usize,
        function: u64,
        offset: u64,
    ) -> Found;
    fn treskibben_record(section: *const u8, length: usize, record: u64) -> Stands;
    fn treskibben_location(
        section: *const u8,
        length: usize,
        record: u64,
        location: u64,
    ) -> Location;
    fn treskibben_live_out(
        section: *const u8,
        length: usize,
        record: u64,
        live_out: u64,
    ) -> LiveOut;
    fn treskibben_to_listing(
        section: *const u8,
        length: usize,
        output: *mut u8,
        room: usize,
    ) -> Answer;
    fn treskibben_to_section(
        listing: *const u8,
        length: usize,
        output: *mut u8,
        room: usize,
    ) -> Answer;
    fn treskibben_relocate(
        section: *const u8,
        length: usize,
        image: *mut u8,
        image_length: usize,
        first: u64,
        olds: *const u64,
        old_count: usize,
        news: *const u64,
        new_count: usize,
        machine: u64,
        frame: Frame,
        registers: *mut u64,
        registers_length: usize,
    ) -> Answer;
    fn treskibben_thread(
        section: *const u8,
        length: usize,
        image: *mut u8,
        image_length: usize,
        first: u64,
        olds: *const u64,
        old_count: usize,
        news: *const u64,
        new_count: usize,
        machine: u64,
        frames: *const u64,
        frames_length: usize,
        registers: *mut u64,
        registers_length: usize,
    ) -> Answer;
}

/// The name is of the version that this crate is written for alone: with a library of another version,
/// what uses the crate can't be linked. `build.rs` says so earlier and in words.
#[used]
static OF_THIS_VERSION: unsafe extern "C" fn() -> u32 = treskibben_version_3;

/// The version of the library.
pub(crate) fn version() -> u32 {
    // SAFETY: the function takes nothing and answers a number.
    unsafe { treskibben_version() }
}

/// The check of a section.
pub(crate) fn check(section: &[u8]) -> Answer {
    // SAFETY: the pointer and the length are those of one slice, which is borrowed for the whole
    // call: the bytes can be read and nobody writes them meanwhile. The pointer of a slice is never
    // null, also where the slice is empty. The function reads no other memory, writes none but its
    // answer, keeps no pointer, and its declaration above is that of `treskibben.h`.
    unsafe { treskibben_check(section.as_ptr(), section.len()) }
}

/// The question by address.
pub(crate) fn find(section: &[u8], address: u64) -> Found {
    // SAFETY: as in `check`. Every address may be asked for.
    unsafe { treskibben_find(section.as_ptr(), section.len(), address) }
}

/// The question by function and offset.
pub(crate) fn find_in_function(section: &[u8], function: u64, offset: u64) -> Found {
    // SAFETY: as in `check`. Every function number and every offset may be asked for.
    unsafe { treskibben_find_in_function(section.as_ptr(), section.len(), function, offset) }
}

/// The question by record number.
pub(crate) fn record(section: &[u8], record: u64) -> Stands {
    // SAFETY: as in `check`. Every number may be asked for. The answer has no pointer, but numbers.
    unsafe { treskibben_record(section.as_ptr(), section.len(), record) }
}

/// The question by record and location number.
pub(crate) fn location(section: &[u8], record: u64, location: u64) -> Location {
    // SAFETY: as in `check`. All numbers may be asked for. Every field of the answer is a number,
    // for which all bits will do.
    unsafe { treskibben_location(section.as_ptr(), section.len(), record, location) }
}

/// The question by record and live-out number.
pub(crate) fn live_out(section: &[u8], record: u64, live_out: u64) -> LiveOut {
    // SAFETY: as in `check`. All numbers may be asked for. Every field of the answer is a number,
    // for which all bits will do.
    unsafe { treskibben_live_out(section.as_ptr(), section.len(), record, live_out) }
}

/// The conversion of a section to a listing.
pub(crate) fn to_listing(section: &[u8], output: &mut [u8]) -> Answer {
    let (to, room) = (output.as_mut_ptr(), output.len());
    // SAFETY: of the section as in `check`. The output's pointer and length, too, are those of one
    // slice, which is borrowed for the whole call, so that its bytes can be written, nobody else
    // reads or writes them, and none of them is the section's. The function writes no other memory
    // but its answer. Every byte may be written: all bits will do for a `u8`.
    unsafe { treskibben_to_listing(section.as_ptr(), section.len(), to, room) }
}

/// The conversion of a listing to a section.
pub(crate) fn to_section(listing: &[u8], output: &mut [u8]) -> Answer {
    let (to, room) = (output.as_mut_ptr(), output.len());
    // SAFETY: as in `to_listing`. Every listing may be lent.
    unsafe { treskibben_to_section(listing.as_ptr(), listing.len(), to, room) }
}

/// The move of one frame, on the machine of this number.
#[allow(clippy::too_many_arguments)] // Those of the function that it calls.
pub(crate) fn relocate(
    section: &[u8],
    image: &mut [u8],
    first: u64,
    olds: &[u64],
    news: &[u64],
    machine: u64,
    frame: Frame,
    registers: &mut [u64],
) -> Answer {
    let (stack, bytes) = (image.as_mut_ptr(), image.len());
    // SAFETY: of the section as in `check`, and of the image as of the output in `to_listing`: it
    // shares no byte with the section or with a list. Each list's pointer and number of entries are
    // those of one slice of `u64`, which is borrowed for the whole call; the pointer is aligned and
    // never null. The two numbers are handed over each by itself, so that lists of unequal length
    // are read as far as each goes. The registers are one more slice of `u64`, of any length, which is
    // borrowed as the image is: its numbers can be written, nobody else reads or writes them, and no byte
    // of theirs is the image's, the section's or a list's. All bits will do for a `u64`. Every first
    // address, every number of a machine and every frame may be asked for, and the frame, a struct of
    // `treskibben.h`, is handed over by value.
    unsafe {
        treskibben_relocate(
            section.as_ptr(),
            section.len(),
            stack,
            bytes,
            first,
            olds.as_ptr(),
            olds.len(),
            news.as_ptr(),
            news.len(),
            machine,
            frame,
            registers.as_mut_ptr(),
            registers.len(),
        )
    }
}

/// The move of a whole thread, on the machine of this number.
#[allow(clippy::too_many_arguments)] // Those of the function that it calls.
pub(crate) fn thread(
    section: &[u8],
    image: &mut [u8],
    first: u64,
    olds: &[u64],
    news: &[u64],
    machine: u64,
    frames: &[u64],
    registers: &mut [u64],
) -> Answer {
    let (stack, bytes) = (image.as_mut_ptr(), image.len());
    // SAFETY: as in `relocate`. The frames are one more list, of any length: it is lent as those of the
    // starts are.
    unsafe {
        treskibben_thread(
            section.as_ptr(),
            section.len(),
            stack,
            bytes,
            first,
            olds.as_ptr(),
            olds.len(),
            news.as_ptr(),
            news.len(),
            machine,
            frames.as_ptr(),
            frames.len(),
            registers.as_mut_ptr(),
            registers.len(),
        )
    }
}

/// The numbers of frames, in the order of the struct.
pub(crate) fn numbers(frames: &[Frame]) -> &[u64] {
    // SAFETY: a `Frame` is two `u64` one after the other and nothing else, as asserted above, and is
    // aligned as a `u64` is: so the bytes of the slice are those of twice as many `u64`, in the same
    // allocation, borrowed for as long. Their length in bytes is the slice's own.
    unsafe { std::slice::from_raw_parts(frames.as_ptr().cast(), 2 * frames.len()) }
}
