//! How a frame is answered and what becomes of the image and of its registers, worked out plainly from
//! the scene: one more opinion beside those of the library and of the second implementation.

use super::machines::is_slot_register;
use super::{keys, registers, Scene, MOST_POINTERS, REGISTERS};
use crate::layout::{Location, Record, Version};
use crate::questions::addresses;

/// A slot: eight bytes by their first, counted from the stack pointer, or a register by its number.
#[derive(Clone, Copy, Debug, PartialEq, Eq)]
pub enum Slot {
    Stack(i128),
    Register(usize),
}

impl Slot {
    /// Its first byte, if it is on the stack.
    pub fn on_stack(self) -> Option<i128> {
        match self {
            Slot::Stack(at) => Some(at),
            Slot::Register(_) => None,
        }
    }

    /// Its number, if it is a register.
    pub fn in_register(self) -> Option<usize> {
        match self {
            Slot::Stack(_) => None,
            Slot::Register(number) => Some(number),
        }
    }
}

/// The slots of a pair's pointers, base first; a null pair has none.
pub type Slots = Vec<[Slot; 2]>;

/// The number of the location that the pairs of a statepoint begin with; nothing where the record
/// is no statepoint.
pub fn first_pair(record: &Record) -> Option<usize> {
    let count = record.locations.len();
    let constants = count >= 3 && record.locations[..3].iter().all(|one| one.kind == 4);
    if !constants || !record.live_outs.is_empty() {
        return None;
    }
    let deopt = i64::from(record.locations[2].offset as i32);
    let left = count as i64 - 3 - deopt;
    (deopt >= 0 && left >= 0 && left % 2 == 0).then_some((3 + deopt) as usize)
}

/// The slots of a frame's pairs, each of which is null or has the right form.
pub fn slots(scene: &Scene, stop: usize) -> Vec<Slots> {
    let record = &scene.section.records[scene.stops[stop].record];
    let first = first_pair(record).expect("a statepoint");
    let [of_frame, _] = registers(scene.machine);
    let start = scene.stack_pointer(stop);
    let slot = |location: &Location, nth: usize| {
        let register = match location.register {
            own if location.kind == 1 => return Slot::Register(own.into()),
            frame_pointer if frame_pointer == of_frame => scene.frame_pointer(stop),
            _ => start,
        };
        let address = i128::from(register) + i128::from(location.offset as i32) + 8 * nth as i128;
        Slot::Stack(address - i128::from(start))
    };
    let slots = |pair: &[Location]| match pair[0].kind {
        1 | 3 => (0..pointers_of(scene.section.version, pair))
            .map(|nth| [&pair[0], &pair[1]].map(|one| slot(one, nth)))
            .collect(),
        _ => Vec::new(),
    };
    record.locations[first..]
        .chunks_exact(2)
        .map(slots)
        .collect()
}

/// How many pointers a pair is that is null or has the right form.
pub(super) fn pointers_of(version: Version, pair: &[Location]) -> usize {
    match (version, pair[0].kind) {
        (Version::Three, 1 | 3) => usize::from(pair[0].size / 8),
        _ => 1,
    }
}

/// The number of a frame's pointers, null pairs counting one each. Its pairs are null or, in version 3,
/// have the right form.
pub fn pointers(scene: &Scene, stop: usize) -> usize {
    let record = &scene.section.records[scene.stops[stop].record];
    let first = first_pair(record).expect("a statepoint");
    let pairs = record.locations[first..].chunks_exact(2);
    pairs
        .map(|pair| pointers_of(scene.section.version, pair))
        .sum()
}

/// Where a slot on the stack begins in the image.
fn in_image(scene: &Scene, stop: usize, slot: i128) -> usize {
    usize::try_from(scene.start(stop) + slot).expect("a slot in the image")
}

/// The content of a slot of a frame.
pub fn content(scene: &Scene, stop: usize, slot: Slot) -> u64 {
    match slot {
        Slot::Register(number) => scene.stops[stop].registers[number],
        Slot::Stack(slot) => {
            let at = in_image(scene, stop, slot);
            let bytes = scene.image[at..at + 8].try_into().expect("eight bytes");
            u64::from_le_bytes(bytes)
        }
    }
}

/// Sets the content of a slot of a frame.
pub fn set_content(scene: &mut Scene, stop: usize, slot: Slot, content: u64) {
    match slot {
        Slot::Register(number) => scene.stops[stop].registers[number] = content,
        Slot::Stack(slot) => {
            let at = in_image(scene, stop, slot);
            scene.image[at..at + 8].copy_from_slice(&content.to_le_bytes());
        }
    }
}

/// The answer of a frame that is moved alone, where nothing is wrong with the section, the machine, the
/// image and the table: number and place, both 0 where it is accepted.
pub fn refusal(scene: &Scene, stop: usize) -> (u64, u64) {
    refusal_under(scene, stop, MOST_POINTERS)
}

/// The answer of a frame that is moved alone and may have so many pointers.
pub fn refusal_under(scene: &Scene, stop: usize, most: usize) -> (u64, u64) {
    match scene.stops[stop].listed {
        REGISTERS => own_refusal_under(scene, stop, most),
        _ => (25, 0),
    }
}

/// The answer of a frame by itself with its 32 registers, as in a thread.
pub fn own_refusal(scene: &Scene, stop: usize) -> (u64, u64) {
    own_refusal_under(scene, stop, MOST_POINTERS)
}

/// The answer of a frame by itself with its 32 registers that may have so many pointers.
pub fn own_refusal_under(scene: &Scene, stop: usize, most: usize) -> (u64, u64) {
    match whole(scene, stop) {
        Err(number) => (number, 0),
        Ok(pairs) => of_pairs(scene, stop, pairs, most),
    }
}

/// The answer of a frame with these locations of pairs: 17 to 21, or accepted. Version 1 looks for 17
/// before 18.
fn of_pairs(scene: &Scene, stop: usize, pairs: &[Location], most: usize) -> (u64, u64) {
    let version = scene.section.version;
    if version == Version::One && pairs.len() / 2 > most {
        return (17, 0);
    }
    let wrong = |pair: &[Location]| !is_null(scene, pair) && !is_form(scene, pair);
    if let Some(pair) = pairs.chunks_exact(2).position(wrong) {
        return (18, pair as u64);
    }
    if version == Version::Three && pointers(scene, stop) > most {
        return (17, 0);
    }
    let size = i128::from(scene.stack_size(stop));
    let outside = |slot: i128| slot < 0 || slot + 8 > size;
    let beyond = |pair: &Slots| {
        let mut on_stack = pair.iter().flatten().filter_map(|slot| slot.on_stack());
        on_stack.any(outside)
    };
    match slots(scene, stop).iter().position(beyond) {
        Some(pair) => (19, pair as u64),
        None => answer(scene, stop),
    }
}

/// The locations of a frame's pairs, or what it is refused by as a whole: 10, 15, 12, 16.
fn whole(scene: &Scene, stop: usize) -> Result<&[Location], u64> {
    let record = standing(scene, stop)?;
    let record = &scene.section.records[record];
    let first = first_pair(record).ok_or(12_u64)?;
    let (start, size) = (scene.start(stop), scene.stack_size(stop));
    if size == u64::MAX || start < 0 || start + i128::from(size) > scene.image.len() as i128 {
        return Err(16);
    }
    Ok(&record.locations[first..])
}

/// The number of the one record that a frame stands at, or 10 or 15. In version 1 the function that is
/// handed in has to be there.
fn standing(scene: &Scene, stop: usize) -> Result<usize, u64> {
    let (section, own) = (&scene.section, scene.stops[stop]);
    if section.version == Version::One && own.named >= section.functions.len() as u64 {
        return Err(10);
    }
    let there = keys(section).into_iter().enumerate();
    let mut there = there.filter(|(_, address)| *address == own.address);
    let (record, _) = there.next().ok_or(10_u64)?;
    if there.next().is_some() {
        return Err(15);
    }
    assert_eq!(record, own.record);
    if let Some((owner, _)) = addresses(section).nth(record) {
        assert_eq!(owner, own.function);
    }
    Ok(record)
}

/// Whether both locations of a pair are constants equal to 0.
pub(super) fn is_null(scene: &Scene, pair: &[Location]) -> bool {
    pair.iter().all(|one| match one.kind {
        4 => one.offset == 0,
        5 => scene.section.constants[one.offset as usize] == 0,
        _ => false,
    })
}

/// Whether a pair has the right form. Its locations are counted from the machine's two pointers, or are
/// registers that are slots. Its sizes are 8 in version 1, each by itself also 0; in version 3 they are
/// equal, a multiple of 8, and of 1 to 256 pointers, that of a register of one.
pub(super) fn is_form(scene: &Scene, pair: &[Location]) -> bool {
    let own = registers(scene.machine);
    let slot = |one: &Location| match one.kind {
        1 => is_slot_register(one, scene.machine) && one.size <= 8,
        3 => own.contains(&one.register),
        _ => false,
    };
    let sizes = [pair[0].size, pair[1].size];
    let right = match scene.section.version {
        Version::One => sizes.iter().all(|size| [0, 8].contains(size)),
        Version::Three => {
            let most = 8 * MOST_POINTERS as u16;
            sizes[0] == sizes[1] && sizes[0].is_multiple_of(8) && (8..=most).contains(&sizes[0])
        }
    };
    right && pair.iter().all(slot)
}

/// The answer of a frame whose pairs all have slots inside it: 20, 21 or accepted.
pub fn answer(scene: &Scene, stop: usize) -> (u64, u64) {
    let pairs = slots(scene, stop);
    let base = |pointer: &[Slot; 2]| content(scene, stop, pointer[0]);
    let mut before: Vec<[Slot; 2]> = Vec::new();
    for (nth, pair) in pairs.iter().enumerate() {
        for pointer in pair {
            before.push(*pointer);
            for other in &before {
                let overlap = [pointer[0], pointer[1], other[0], other[1]]
                    .iter()
                    .any(|one| pointer.iter().any(|two| near(*one, *two)));
                if overlap || pointer[1] == other[1] && base(pointer) != base(other) {
                    return (20, nth as u64);
                }
            }
        }
    }
    let lost = |pointer: &[Slot; 2]| scene.table.moved(base(pointer)).is_none();
    match pairs.iter().position(|pair| pair.iter().any(lost)) {
        Some(nth) => (21, nth as u64),
        None => (0, 0),
    }
}

/// Whether two slots share a byte without being equal. A register shares none with anything.
pub fn near(one: Slot, other: Slot) -> bool {
    match (one, other) {
        (Slot::Stack(one), Slot::Stack(other)) => one != other && (one - other).abs() < 8,
        _ => false,
    }
}

/// The derived slots of an accepted frame with their new contents, all worked out from the scene.
fn new_contents(scene: &Scene, stop: usize) -> Vec<(Slot, u64)> {
    let new = |[base, derived]: [Slot; 2]| {
        let old = content(scene, stop, base);
        let new = scene.table.moved(old);
        let new = new.expect("the base of an accepted frame");
        let pointer = content(scene, stop, derived);
        (derived, pointer.wrapping_sub(old).wrapping_add(new))
    };
    slots(scene, stop).into_iter().flatten().map(new).collect()
}

/// The image after the moves of these frames, all of which are accepted: every new content is that
/// of the starting image.
pub fn moved(scene: &Scene, stops: impl IntoIterator<Item = usize>) -> Vec<u8> {
    let mut image = scene.image.clone();
    for stop in stops {
        for (slot, content) in new_contents(scene, stop) {
            if let Some(slot) = slot.on_stack() {
                let at = in_image(scene, stop, slot);
                image[at..at + 8].copy_from_slice(&content.to_le_bytes());
            }
        }
    }
    image
}

/// The registers of an accepted frame after its move.
pub fn moved_registers(scene: &Scene, stop: usize) -> [u64; REGISTERS] {
    let mut registers = scene.stops[stop].registers;
    for (slot, content) in new_contents(scene, stop) {
        if let Some(number) = slot.in_register() {
            registers[number] = content;
        }
    }
    registers
}
