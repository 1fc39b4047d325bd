//! The calls that move frames, as C has them: they take every number for a machine, and the safe ones only
//! those of the two machines.

use super::Call;
use treskibben::Frame;

#[repr(C)]
struct Answer {
    number: u64,
    place: u64,
    value: u64,
}

impl Answer {
    fn outcome(self) -> Result<u64, (u64, u64)> {
        match self.number {
            0 => Ok(self.value),
            number => Err((number, self.place)),
        }
    }
}

extern "C" {
    fn treskibben_relocate(
        section: *const u8,
        length: usize,
        image: *mut u8,
        image_length: usize,
        first: u64,
        olds: *const u64,
        old_count: usize,
        news: *const u64,
        new_count: usize,
        machine: u64,
        frame: Frame,
        registers: *mut u64,
        registers_length: usize,
    ) -> Answer;
    fn treskibben_thread(
        section: *const u8,
        length: usize,
        image: *mut u8,
        image_length: usize,
        first: u64,
        olds: *const u64,
        old_count: usize,
        news: *const u64,
        new_count: usize,
        machine: u64,
        frames: *const u64,
        frames_length: usize,
        registers: *mut u64,
        registers_length: usize,
    ) -> Answer;
    fn treskibben_thread_by_index(
        section: *const u8,
        length: usize,
        image: *mut u8,
        image_length: usize,
        first: u64,
        olds: *const u64,
        old_count: usize,
        news: *const u64,
        new_count: usize,
        machine: u64,
        frames: *const u64,
        frames_length: usize,
        registers: *mut u64,
        registers_length: usize,
        index: *const u64,
        index_length: usize,
    ) -> Answer;
}

/// The move of one frame.
pub fn relocate(
    call: &Call<Frame>,
    image: &mut [u8],
    registers: &mut [u64],
) -> Result<u64, (u64, u64)> {
    // SAFETY: each pointer and length are those of one slice, borrowed for the whole call, the image's
    // and the registers' alone for writing; the declaration is that of `treskibben.h`.
    let answer = unsafe {
        treskibben_relocate(
            call.section.as_ptr(),
            call.section.len(),
            image.as_mut_ptr(),
            image.len(),
            call.first,
            call.olds.as_ptr(),
            call.olds.len(),
            call.news.as_ptr(),
            call.news.len(),
            call.machine,
            call.frames,
            registers.as_mut_ptr(),
            registers.len(),
        )
    };
    answer.outcome()
}

/// The move of a thread with these frames.
pub fn thread<F>(
    call: &Call<F>,
    frames: &[u64],
    image: &mut [u8],
    registers: &mut [u64],
) -> Result<u64, (u64, u64)> {
    // SAFETY: as in `relocate`. The frames are one more list.
    let answer = unsafe {
        treskibben_thread(
            call.section.as_ptr(),
            call.section.len(),
            image.as_mut_ptr(),
            image.len(),
            call.first,
            call.olds.as_ptr(),
            call.olds.len(),
            call.news.as_ptr(),
            call.news.len(),
            call.machine,
            frames.as_ptr(),
            frames.len(),
            registers.as_mut_ptr(),
            registers.len(),
        )
    };
    answer.outcome()
}

/// The move of a thread with these frames and this index.
#[allow(dead_code)] // Not every test hands in an index.
pub fn thread_by_index<F>(
    call: &Call<F>,
    frames: &[u64],
    index: &[u64],
    image: &mut [u8],
    registers: &mut [u64],
) -> Result<u64, (u64, u64)> {
    // SAFETY: as in `relocate`. The frames and the index are two more lists.
    let answer = unsafe {
        treskibben_thread_by_index(
            call.section.as_ptr(),
            call.section.len(),
            image.as_mut_ptr(),
            image.len(),
            call.first,
            call.olds.as_ptr(),
            call.olds.len(),
            call.news.as_ptr(),
            call.news.len(),
            call.machine,
            frames.as_ptr(),
            frames.len(),
            registers.as_mut_ptr(),
            registers.len(),
            index.as_ptr(),
            index.len(),
        )
    };
    answer.outcome()
}
