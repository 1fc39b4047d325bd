//! One slot of a frame that is asked for.

use super::{agree, OfFrame, OfSlot, Report};
use crate::frames::Line;
use crate::inputs::slots::Place;
use crate::inputs::Inputs;
use crate::library::{Reason, Registers, Slot};
use crate::lists::is_not;
use crate::numbers::hexadecimal;
use crate::registers::Machine;
use crate::trouble::Trouble;

/// What `--slot` takes.
const FORMS: &str = "an address, a register of the machine, or a register and a distance as rsp+10";

impl Report<'_> {
    /// A slot of the report's only frame: an address, a register, or a distance from what a register holds.
    /// The library says why it moves or stays.
    pub fn asked(&self, text: &str, image: &[u8]) -> Result<OfSlot, Trouble> {
        let (inputs, frame) = (self.inputs, &self.frames[0]);
        let line = &inputs.lines[frame.position].value;
        let asked = asked(inputs.machine, line, text);
        let (slot, named) = asked.map_err(|why| Trouble::Usage(format!("--slot: {why}")))?;
        let restore = inputs.restore();
        let reason = restore.explain(image, line.frame, &line.registers, slot);
        let reason =
            reason.map_err(|refusal| inputs.refused_alone(refusal, frame.position, image))?;
        let listed = frame.slots.iter().find(|own| own.slot == slot);
        Ok(match listed {
            Some(listed) => OfSlot {
                reason,
                ..listed.clone()
            },
            None => OfSlot {
                slot,
                place: inputs.place(frame.position, slot, named),
                content: contents(inputs, frame, slot, image),
                reason,
                derived: None,
                base_of: Vec::new(),
                beside: beside(slot, &frame.slots),
            },
        })
    }
}

/// The slot that a text asks for, and how it names it.
fn asked(machine: Machine, line: &Line, text: &str) -> Result<(Slot, Option<Place>), String> {
    let bad = || is_not(text.as_bytes(), FORMS);
    if let Some(address) = hexadecimal(text.as_bytes()) {
        return Ok((Slot::Address(address), None));
    }
    let sign = text.find(['+', '-']);
    let (name, distance) = text.split_at(sign.unwrap_or(text.len()));
    let register = machine.named(name.as_bytes()).ok_or_else(bad)?;
    if distance.is_empty() {
        return Ok((Slot::Register(register.into()), None));
    }
    let number = hexadecimal(&distance.as_bytes()[1..]).ok_or_else(bad)?;
    let offset = i64::try_from(number).map_err(|_| bad())?;
    let offset = if distance.starts_with('-') {
        -offset
    } else {
        offset
    };
    if !line.tells(register) {
        let name = machine.register(register);
        return Err(format!("the frame's line doesn't tell what {name} holds"));
    }
    let from = line.registers[usize::from(register)];
    let address = from.checked_add_signed(offset).ok_or_else(bad)?;
    let named = Place {
        register,
        offset: Some(offset),
    };
    Ok((Slot::Address(address), Some(named)))
}

/// What a slot that isn't listed holds before the move and after it, where that is known.
fn contents(inputs: &Inputs, frame: &OfFrame, slot: Slot, image: &[u8]) -> Option<[u64; 2]> {
    let line = &inputs.lines[frame.position].value;
    let (mut after, mut registers) = (image.to_vec(), [line.registers]);
    let listed = frame.slots.iter();
    let new = listed.filter_map(|own| Some((0, own.slot, own.content?[1])));
    agree::put(new, inputs.given.first, &mut after, &mut registers);
    let told = match slot {
        Slot::Register(number) => u16::try_from(number).is_ok_and(|number| line.tells(number)),
        Slot::Address(_) => true,
    };
    let before = content(inputs.given.first, image, &line.registers, slot);
    let after = content(inputs.given.first, &after, &registers[0], slot);
    Some([before?, after?]).filter(|_| told)
}

/// What a slot holds, if it is in the image or a register.
fn content(first: u64, image: &[u8], registers: &Registers, slot: Slot) -> Option<u64> {
    match slot {
        Slot::Register(number) => registers.get(usize::try_from(number).ok()?).copied(),
        Slot::Address(address) => {
            let at = usize::try_from(address.checked_sub(first)?).ok()?;
            let bytes = image.get(at..)?.first_chunk()?;
            Some(u64::from_le_bytes(*bytes))
        }
    }
}

/// A listed slot that has some of the bytes of one that isn't listed.
fn beside(slot: Slot, listed: &[OfSlot]) -> Option<Place> {
    let Slot::Address(address) = slot else {
        return None;
    };
    let shares = |own: &&OfSlot| match own.slot {
        Slot::Address(other) => other.abs_diff(address) < 8 && own.reason != Reason::Unlisted,
        Slot::Register(_) => false,
    };
    listed.iter().find(shares).map(|own| own.place)
}

#[cfg(test)]
mod tests {
    use super::*;
    use crate::frames::Naming;
    use std::path::Path;

    #[test]
    fn slots_that_are_asked_for() {
        let text = b"1020 0x6ff8 7000 rbx=5";
        let lines = Naming::Address.read(Machine::X86_64, Path::new("frames"), text);
        let line = lines.unwrap()[0].value;
        let slot = |text: &str| asked(Machine::X86_64, &line, text);
        let at = |register, offset| {
            Some(Place {
                register,
                offset: Some(offset),
            })
        };
        for (text, found) in [
            ("7010", (Slot::Address(0x7010), None)),
            ("0x7010", (Slot::Address(0x7010), None)),
            ("rbx", (Slot::Register(3), None)),
            ("RSP", (Slot::Register(7), None)),
            ("rsp+10", (Slot::Address(0x7010), at(7, 16))),
            ("RBP-0x8", (Slot::Address(0x6ff0), at(6, -8))),
            ("rbx+0", (Slot::Address(5), at(3, 0))),
        ] {
            assert_eq!(slot(text), Ok(found), "{text}");
        }
        for text in [
            "",
            "+",
            "rsp+",
            "rsp++1",
            "rsp+g",
            "+10",
            "7000+10",
            "x0",
            "rbx-6",
            "rsp+8000000000000000",
            "rip",
            "rsp 8",
        ] {
            let why = slot(text).unwrap_err();
            assert!(
                why.starts_with(&format!("'{text}' is not an address, ")),
                "{why}"
            );
        }
        assert!(slot("rax+8").unwrap_err().contains("doesn't tell what RAX"));
    }
}
