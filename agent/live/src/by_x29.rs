//! Maps for AArch64 that name the same slots by the frame pointer.
//!
//! LLVM 14 addresses the slots of a statepoint by sp wherever the stack size is known. In a function with
//! a frame pointer, x29 is a fixed distance above sp, which its first instructions tell. So each slot can
//! as well be addressed by x29, and a move of such maps has to do the same.

use crate::library::{self, Machine};
use crate::memory::Memory;
use crate::prologue;
use reference::Section;

/// Where a location's fields stand in it, and how long it is; where a record's first location stands.
const REGISTER: usize = 4;
const OFFSET: usize = 8;
const LOCATION: usize = 12;
const LOCATIONS: usize = 16;

/// The kind of a slot.
const INDIRECT: u8 = 3;

/// The maps of a section, one after the other, with all slots addressed by x29. The memory has the code.
pub(crate) fn changed(mut section: Vec<u8>, memory: &dyn Memory) -> Vec<u8> {
    let mut from = 0;
    while from < section.len() {
        let rest = &mut section[from..];
        let length = match library::check(rest) {
            Err((9, place)) => place as usize,
            _ => rest.len(),
        };
        change(&mut rest[..length], memory);
        from += length;
    }
    section
}

fn change(map: &mut [u8], memory: &dyn Memory) {
    let section = reference::read(map).unwrap_or_else(|_| panic!("a map of ours is refused"));
    for record in &section.records {
        let above = above_sp(&section, record.function, memory);
        for (number, location) in record.locations.iter().enumerate() {
            let by_sp = location.register == Machine::Aarch64.stack_pointer();
            if location.kind != INDIRECT || !by_sp {
                continue;
            }
            let at = record.first + LOCATIONS + LOCATION * number;
            let register = Machine::Aarch64.frame_pointer().to_le_bytes();
            map[at + REGISTER..at + REGISTER + 2].copy_from_slice(&register);
            let offset = (location.offset - above).to_le_bytes();
            map[at + OFFSET..at + OFFSET + 4].copy_from_slice(&offset);
        }
    }
}

/// How far x29 is above sp in a function: it points to the saved x29, which stands before x30.
fn above_sp(section: &Section, number: usize, memory: &dyn Memory) -> i32 {
    let function = &section.functions[number];
    let mut code = vec![0; prologue::length(Machine::Aarch64)];
    // SAFETY: the map says that a function of the program is there, and each has more bytes.
    unsafe { memory.read(function.address, &mut code) };
    let saved = prologue::saved(Machine::Aarch64, &code);
    let return_address = saved.return_address();
    let below = return_address.expect("a function that calls saves x30") + 8;
    i32::try_from(function.stack_size - below).expect("frames are small")
}
