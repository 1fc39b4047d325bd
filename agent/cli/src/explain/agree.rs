//! That a report and a new image are of one move: what each slot holds in the report is what the image and the
//! registers hold. Both are the library's, and somebody signs the one for the other.

use crate::inputs::{Inputs, Moved};
use crate::library::{ExplainedPointer, Registers, Slot};
use crate::trouble::Trouble;

/// Sees that the report leads from the old image and registers to the new ones.
pub fn with_the_move(
    inputs: &Inputs,
    moved: &Moved,
    pointers: &[ExplainedPointer],
) -> Result<(), Trouble> {
    let (mut image, mut registers) = (moved.before.clone(), inputs.registers());
    let derived = pointers.iter().filter_map(|pointer| {
        let (_, derived) = pointer.slots.as_ref()?;
        Some((pointer.frame, derived.slot, derived.new_content()))
    });
    put(derived, inputs.given.first, &mut image, &mut registers);
    match image == moved.after && registers == moved.registers {
        true => Ok(()),
        false => Err(Trouble::file(
            &inputs.given.image,
            "cannot be explained",
            "the report of its slots and the new image differ, and nothing is written",
        )),
    }
}

/// Puts what slots hold now where they are. Each is told with the position of its frame among the registers.
pub fn put(
    slots: impl Iterator<Item = (usize, Slot, u64)>,
    first: u64,
    image: &mut [u8],
    registers: &mut [Registers],
) {
    for (frame, slot, content) in slots {
        match slot {
            Slot::Register(number) => {
                let own = registers.get_mut(frame);
                let own = own.and_then(|own| own.get_mut(usize::try_from(number).ok()?));
                if let Some(register) = own {
                    *register = content;
                }
            }
            Slot::Address(address) => {
                let at = usize::try_from(address.wrapping_sub(first));
                let end = at.ok().and_then(|at| image.get_mut(at..));
                let bytes = end.and_then(<[u8]>::first_chunk_mut);
                if let Some(bytes) = bytes {
                    *bytes = content.to_le_bytes();
                }
            }
        }
    }
}

#[cfg(test)]
mod tests {
    use super::*;

    #[test]
    fn slots_are_put_where_they_are() {
        let (mut image, mut registers) = (vec![0; 24], vec![Registers::default()]);
        let slots = [
            (0, Slot::Address(0x7008), 0x94e20),
            (0, Slot::Address(0x7010), 7),
            (0, Slot::Register(3), 0x8ffff),
            (1, Slot::Register(4), 1),
            (0, Slot::Address(0x7011), 1),
            (0, Slot::Register(32), 1),
            (0, Slot::Address(0), 1),
        ];
        put(slots.into_iter(), 0x7000, &mut image, &mut registers);
        assert_eq!(image, [0, 0x94e20, 7].map(u64::to_le_bytes).concat());
        assert_eq!(registers[0][3], 0x8ffff);
        assert_eq!(registers[0].iter().filter(|own| **own != 0).count(), 1);
    }
}
