//! The functions on flat sections, and a safe function over each.

use super::{Answer, LiveOut, Verdict};
use std::mem::offset_of;

/// What the lookup answers: the struct `treskibben_flat_find_answer`.
#[repr(C)]
pub(crate) struct Found {
    pub(crate) verdict: Verdict,
    pub(crate) frame: u64,
    pub(crate) record: u64,
}

/// What the question for a frame answers: the struct `treskibben_flat_frame_answer`.
#[repr(C)]
pub(crate) struct Frame {
    pub(crate) verdict: Verdict,
    pub(crate) address: u64,
    pub(crate) function_size: u32,
    pub(crate) stack_size: u32,
    pub(crate) flags: u16,
    pub(crate) base_register: u16,
    pub(crate) num_registers: u16,
    pub(crate) register_index: u16,
    pub(crate) num_records: u16,
    pub(crate) record_index: u16,
}

/// What the question for a frame register answers: the struct `treskibben_flat_register_answer`.
#[repr(C)]
pub(crate) struct FrameRegister {
    pub(crate) verdict: Verdict,
    pub(crate) register: u16,
    pub(crate) offset: i16,
    pub(crate) size: u8,
    pub(crate) flags: u8,
}

/// What the question for a record answers: the struct `treskibben_flat_record_answer`.
#[repr(C)]
pub(crate) struct Record {
    pub(crate) verdict: Verdict,
    pub(crate) id: u64,
    pub(crate) offset: u32,
    pub(crate) num_locations: u16,
    pub(crate) location_index: u16,
    pub(crate) num_live_outs: u16,
    pub(crate) live_out_index: u16,
    pub(crate) call_size: u8,
    pub(crate) flags: u8,
}

/// What the question for a location answers: the struct `treskibben_flat_location_answer`.
#[repr(C)]
pub(crate) struct Location {
    pub(crate) verdict: Verdict,
    pub(crate) offset: i32,
    pub(crate) register: u16,
    pub(crate) kind: u8,
}

// The structs lie in memory as those of `treskibben.h` do, whose numbers `ctest/flat.c` asserts.
const _: () = {
    assert!(size_of::<Found>() == 32 && offset_of!(Found, frame) == 16);
    assert!(offset_of!(Found, record) == 24);
    assert!(size_of::<Frame>() == 48 && offset_of!(Frame, address) == 16);
    assert!(offset_of!(Frame, function_size) == 24 && offset_of!(Frame, stack_size) == 28);
    assert!(offset_of!(Frame, flags) == 32 && offset_of!(Frame, base_register) == 34);
    assert!(offset_of!(Frame, num_registers) == 36 && offset_of!(Frame, register_index) == 38);
    assert!(offset_of!(Frame, num_records) == 40 && offset_of!(Frame, record_index) == 42);
    assert!(size_of::<FrameRegister>() == 24 && offset_of!(FrameRegister, register) == 16);
    assert!(offset_of!(FrameRegister, offset) == 18 && offset_of!(FrameRegister, size) == 20);
    assert!(offset_of!(FrameRegister, flags) == 21);
    assert!(size_of::<Record>() == 40 && offset_of!(Record, id) == 16);
    assert!(offset_of!(Record, offset) == 24 && offset_of!(Record, num_locations) == 28);
    assert!(offset_of!(Record, location_index) == 30 && offset_of!(Record, num_live_outs) == 32);
    assert!(offset_of!(Record, live_out_index) == 34 && offset_of!(Record, call_size) == 36);
    assert!(offset_of!(Record, flags) == 37);
    assert!(size_of::<Location>() == 24 && offset_of!(Location, offset) == 16);
    assert!(offset_of!(Location, register) == 20 && offset_of!(Location, kind) == 22);
};

extern "C" {
    fn treskibben_flat_check(section: *const u8, length: usize) -> Answer;
    fn treskibben_flat_find(section: *const u8, length: usize, address: u64) -> Found;
    fn treskibben_flat_constant(section: *const u8, length: usize, constant: u64) -> Answer;
    fn treskibben_flat_frame(section: *const u8, length: usize, frame: u64) -> Frame;
    fn treskibben_flat_frame_register(
        section: *const u8,
        length: usize,
        frame_register: u64,
    ) -> FrameRegister;
    fn treskibben_flat_record(section: *const u8, length: usize, record: u64) -> Record;
    fn treskibben_flat_location(section: *const u8, length: usize, location: u64) -> Location;
    fn treskibben_flat_live_out(section: *const u8, length: usize, live_out: u64) -> LiveOut;
}

/// The check of a flat section.
pub(crate) fn check(section: &[u8]) -> Answer {
    // SAFETY: as in the check of a section of the other versions, whose declaration this one has.
    unsafe { treskibben_flat_check(section.as_ptr(), section.len()) }
}

/// The lookup by address.
pub(crate) fn find(section: &[u8], address: u64) -> Found {
    // SAFETY: as in `check`. Every address may be asked for.
    unsafe { treskibben_flat_find(section.as_ptr(), section.len(), address) }
}

/// The question for a constant.
pub(crate) fn constant(section: &[u8], number: u64) -> Answer {
    // SAFETY: as in `check`. Every number may be asked for.
    unsafe { treskibben_flat_constant(section.as_ptr(), section.len(), number) }
}

/// The question for a frame.
pub(crate) fn frame(section: &[u8], number: u64) -> Frame {
    // SAFETY: as in `check`. Every number may be asked for. Every field of the answer is a number, for
    // which all bits will do.
    unsafe { treskibben_flat_frame(section.as_ptr(), section.len(), number) }
}

/// The question for a frame register.
pub(crate) fn frame_register(section: &[u8], number: u64) -> FrameRegister {
    // SAFETY: as in `frame`.
    unsafe { treskibben_flat_frame_register(section.as_ptr(), section.len(), number) }
}

/// The question for a record.
pub(crate) fn record(section: &[u8], number: u64) -> Record {
    // SAFETY: as in `frame`.
    unsafe { treskibben_flat_record(section.as_ptr(), section.len(), number) }
}

/// The question for a location.
pub(crate) fn location(section: &[u8], number: u64) -> Location {
    // SAFETY: as in `frame`.
    unsafe { treskibben_flat_location(section.as_ptr(), section.len(), number) }
}

/// The question for a live-out.
pub(crate) fn live_out(section: &[u8], number: u64) -> LiveOut {
    // SAFETY: as in `frame`.
    unsafe { treskibben_flat_live_out(section.as_ptr(), section.len(), number) }
}

#[cfg(test)]
mod tests {
    //! What the safe interface leaves out: the other fields of a refused answer.

    use super::*;
    use generator::flat::questions::{question, Question};
    use generator::flat::{case_of, valid};
    use generator::Rng;

    /// Number, place and whether all other fields are 0.
    fn ask(section: &[u8], question: Question) -> (u64, u64, bool) {
        let (verdict, fields): (Verdict, Vec<u64>) = match question {
            Question::Lookup(address) => {
                let it = find(section, address);
                (it.verdict, vec![it.frame, it.record])
            }
            Question::Frame(number) => {
                let it = frame(section, number);
                let ranges = [it.num_registers, it.register_index, it.num_records];
                let small = [it.flags, it.base_register, it.record_index];
                let wide = [it.address, it.function_size.into(), it.stack_size.into()];
                let small = ranges.into_iter().chain(small).map(u64::from);
                (it.verdict, wide.into_iter().chain(small).collect())
            }
            Question::FrameRegister(number) => {
                let it = frame_register(section, number);
                let bytes = [u64::from(it.size), u64::from(it.flags)];
                let numbers = [u64::from(it.register), it.offset as u64];
                (it.verdict, [numbers, bytes].concat())
            }
            Question::Record(number) => {
                let it = record(section, number);
                let locations = [it.num_locations, it.location_index].map(u64::from);
                let live_outs = [it.num_live_outs, it.live_out_index].map(u64::from);
                let bytes = [it.call_size, it.flags].map(u64::from);
                let own = [it.id, it.offset.into()];
                (it.verdict, [own, locations, live_outs, bytes].concat())
            }
            Question::Location(number) => {
                let it = location(section, number);
                let fields = vec![it.offset as u64, it.register.into(), it.kind.into()];
                (it.verdict, fields)
            }
            Question::LiveOut(number) => {
                let it = live_out(section, number);
                (it.verdict, vec![it.register.into(), it.size.into()])
            }
        };
        let zeros = fields.iter().all(|field| *field == 0);
        (verdict.number, verdict.place, zeros)
    }

    #[test]
    fn places_are_0_and_a_refused_answer_has_zeros() {
        let mut rng = Rng::new(1);
        let mut counts = [0; 42];
        for _ in 0..10_000 {
            let flat = valid::crowded(&mut rng);
            let case = case_of(&mut rng, &flat);
            for _ in 0..4 {
                let question = question(&mut rng, &flat);
                let (number, place, zeros) = ask(&case.bytes, question);
                counts[number as usize] += 1;
                assert_eq!(place, 0, "{question:?} of {:?}", case.bytes);
                assert!(number == 0 || zeros, "{question:?} of {:?}", case.bytes);
            }
            let answer = check(&case.bytes);
            assert_eq!((answer.verdict.place, answer.value), (0, 0));
            let number = rng.below(8) as u64;
            let answer = constant(&case.bytes, number);
            assert_eq!(answer.verdict.place, 0);
            assert!(answer.verdict.number == 0 || answer.value == 0);
        }
        for number in [0, 10, 11, 36, 37, 38, 39, 40, 41] {
            assert!(counts[number] >= 100, "{number}: {counts:?}");
        }
    }
}
