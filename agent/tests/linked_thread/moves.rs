//! The move of a thread over a linked section: by the library, as C asks it and as Rust does, by the second
//! implementation, and frame by frame.

use crate::calls::{Call, Moves, Outcome};
use crate::under::{answer, answer_of_second, both, by_edition, restore, Answer, Under};
use treskibben::{linked, Frame, Frames};

/// The frames of a thread, whose records stand in the maps of a linked section.
#[derive(Clone, Copy, Debug)]
pub struct Linked<'a>(pub &'a [u64]);

impl Moves for Under<'_, Linked<'_>> {
    fn by_library(call: &Call<Self>, image: &mut [u8], registers: &mut [u64]) -> Answer {
        let (stored, Linked(frames)) = (call.frames.stored, call.frames.frames);
        let c = |image: &mut [u8], registers: &mut [u64]| {
            by_edition::linked_thread(stored, call, frames, image, registers)
        };
        let rust = |image: &mut [u8], registers: &mut [u64]| {
            let (edition, machine) = (stored.rust()?, call.machine()?);
            let (section, first, table) = (call.section, call.first, call.table());
            let frames = Frames::of_numbers(frames);
            Some(answer(edition.relocate_linked_thread(
                section, image, first, table, machine, frames, registers,
            )))
        };
        both(call, (image, registers), c, rust)
    }

    fn by_second(call: &Call<Self>, image: &mut [u8], registers: &mut [u64]) -> Answer {
        let (machine, Linked(list)) = (call.machine, call.frames.frames);
        let restore = restore(call);
        answer_of_second(reference::linked::thread(
            &restore, image, machine, list, registers,
        ))
    }
}

/// What is left of a list that is accepted when its frames are moved one by one, the last first, each by the map
/// that has its record.
pub fn frame_by_frame(call: &Call<Under<Linked>>) -> Outcome {
    let (stored, Linked(list)) = (call.frames.stored, call.frames.frames);
    let parts = linked::cut(call.section).expect("a section that is accepted");
    let (mut image, mut registers) = (call.image.to_vec(), call.registers.clone());
    let (numbers, _) = list.as_chunks::<2>();
    let (rows, _) = registers.as_chunks_mut::<32>();
    let mut count = 0;
    for (&[address, function], own) in numbers.iter().zip(rows).rev() {
        let found = linked::find(call.section, address).expect("a record");
        let section = parts[found.map as usize];
        let alone = Call {
            section,
            registers: Vec::new(),
            ..call.clone()
        };
        let frame = Frame { address, function };
        let [number, _, value] = by_edition::relocate(stored, &alone, frame, &mut image, own);
        if number != 0 {
            call.fail(&format!("the frame at {address:#x} alone: {number}"));
        }
        count += value;
    }
    Outcome {
        number: 0,
        place: 0,
        count,
        image,
        registers,
    }
}
