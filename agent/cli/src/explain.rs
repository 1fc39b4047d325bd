//! Why each slot of some frames moves or stays. What the library says of each pointer is put together slot by
//! slot, with the names that the section has for the places.

mod agree;
mod asked;
mod counts;
mod gather;
pub mod objects;
pub mod text;
mod words;

use crate::inputs::slots::Place;
use crate::inputs::{Inputs, Moved};
use crate::library::{self, Reason, Refusal, Slot};
use crate::receipt::Entry;
use crate::trouble::Trouble;
use gather::of_frame;
use std::path::Path;

/// The slots of some frames, and all that they were worked out from.
pub struct Report<'a> {
    pub inputs: &'a Inputs<'a>,
    /// The image before the move, and how long it is.
    pub image: Entry,
    pub frames: Vec<OfFrame>,
    /// What a whole thread's move leaves; none of a single frame.
    pub after: Option<After>,
}

/// What a move leaves.
pub struct After {
    pub image: Entry,
    /// The list of the frames, where a register changes.
    pub frames: Option<Entry>,
    pub registers: u64,
}

/// A frame and its slots.
pub struct OfFrame {
    /// Its position in the list.
    pub position: usize,
    pub stands: Stands,
    pub pointers: u64,
    /// The pairs that are null, and so have no slots.
    pub null_pairs: Vec<u64>,
    /// Each slot once, in the order in which the pairs list them.
    pub slots: Vec<OfSlot>,
}

/// Where a frame stands: its record, its function and the function's stack size.
#[derive(Clone, Copy)]
pub struct Stands {
    pub record: u64,
    pub function: u64,
    pub stack_size: u64,
    /// The number of pairs.
    pub pairs: u64,
}

/// A slot.
#[derive(Clone)]
pub struct OfSlot {
    pub slot: Slot,
    pub place: Place,
    /// What it holds before the move and after it; nothing where that is not known.
    pub content: Option<[u64; 2]>,
    pub reason: Reason,
    /// The lowest pair that derives it, and the base there.
    pub derived: Option<(u64, Base)>,
    /// The pairs that have it as base.
    pub base_of: Vec<u64>,
    /// Of one that isn't listed: a slot that has some of its bytes.
    pub beside: Option<Place>,
}

/// The base that a slot is derived from.
#[derive(Clone, Copy, PartialEq, Eq)]
pub enum Base {
    Itself,
    At(Place),
}

impl<'a> Report<'a> {
    /// All frames of the list, of which the library says that they can be moved. The move is done on copies.
    pub fn of_thread(inputs: &'a Inputs<'a>, moved: &Moved) -> Result<Report<'a>, Trouble> {
        let (frames, registers) = (inputs.frames(), inputs.registers());
        let explained = inputs
            .restore()
            .explain_thread(&moved.before, &frames, &registers);
        let pointers = explained
            .map_err(|(refusal, position)| inputs.refused(refusal, position, &moved.before))?;
        agree::with_the_move(inputs, moved, &pointers)?;
        let records = inputs.at_frames(gather::stands);
        let mut rest = pointers.as_slice();
        let frames = (0..frames.len()).map(|position| {
            let own = rest.partition_point(|pointer| pointer.frame <= position);
            let (own, others) = rest.split_at(own);
            rest = others;
            of_frame(inputs, &records, position, own)
        });
        let frames = frames.collect();
        let registers = moved.changed.len() as u64;
        let frames_after = Entry::of(Path::new(""), moved.frames_after.as_bytes());
        Ok(Report {
            inputs,
            image: Entry::of(&inputs.given.image, &moved.before),
            frames,
            after: Some(After {
                image: Entry::of(Path::new(""), &moved.after),
                frames: (registers > 0).then_some(frames_after),
                registers,
            }),
        })
    }

    /// The frame at a position of the list.
    pub fn of_frame(
        inputs: &'a Inputs<'a>,
        position: usize,
        image: &[u8],
    ) -> Result<Report<'a>, Trouble> {
        let line = &inputs.lines[position].value;
        let explained = inputs
            .restore()
            .explain_frame(image, line.frame, &line.registers);
        if explained.as_ref().err().is_none_or(Refusal::is_of_frame) {
            inputs.all_told(position..position + 1)?;
        }
        let pointers =
            explained.map_err(|refusal| inputs.refused_alone(refusal, position, image))?;
        inputs.one_for_all(position..position + 1)?;
        let records = inputs.at_frames(gather::stands);
        Ok(Report {
            inputs,
            image: Entry::of(&inputs.given.image, image),
            frames: vec![of_frame(inputs, &records, position, &pointers)],
            after: None,
        })
    }
}

impl OfFrame {
    /// The first byte of the extent and the first after it.
    pub fn extent(&self, inputs: &Inputs) -> [u128; 2] {
        let line = &inputs.lines[self.position].value;
        let [_, of_stack] = library::pointers_of(inputs.machine);
        let first = u128::from(line.registers[usize::from(of_stack)]);
        [first, first + u128::from(self.stands.stack_size)]
    }
}

impl Inputs<'_> {
    /// The place of a slot: as the section names it, where that leads there, and else by the stack pointer.
    pub fn place(&self, position: usize, slot: Slot, named: Option<Place>) -> Place {
        let registers = &self.lines[position].value.registers;
        let address = match slot {
            Slot::Register(number) => {
                let register = number as u16;
                return Place {
                    register,
                    offset: None,
                };
            }
            Slot::Address(address) => address,
        };
        let from = |register: u16| registers.get(usize::from(register)).copied();
        let leads_there = |place: &Place| {
            let (from, offset) = (from(place.register), place.offset);
            from.zip(offset)
                .is_some_and(|(from, offset)| from.checked_add_signed(offset) == Some(address))
        };
        named.filter(leads_there).unwrap_or_else(|| {
            let [_, register] = library::pointers_of(self.machine);
            let distance = address.wrapping_sub(from(register).unwrap_or_default());
            Place {
                register,
                offset: Some(distance as i64),
            }
        })
    }
}
