//! Moves every statepoint of a section in a hand-made frame. Which slots it has, and what it is refused by, follows here
//! from what llvm-readobj printed and from the frame alone.

use crate::compare::{length, owners, same};
use crate::readobj::{Location, Printed, Record, Value};
use std::collections::BTreeMap;
use treskibben::{Machine, Registers};

/// What a target's frames are like: the DWARF numbers of the frame and the stack pointer, the number after those of the
/// general registers, and how far below the end of a frame the frame pointer points, where it is one.
#[derive(Clone, Copy)]
pub struct Target {
    machine: Machine,
    frame_pointer: u16,
    stack_pointer: u16,
    registers: u16,
    below_end: u64,
}

impl Target {
    pub fn named(name: &str) -> Target {
        match name {
            "x86_64" => Target {
                machine: Machine::Amd64,
                frame_pointer: 6,
                stack_pointer: 7,
                registers: 16,
                below_end: 8,
            },
            "aarch64" => Target {
                machine: Machine::Aarch64,
                frame_pointer: 29,
                stack_pointer: 31,
                registers: 32,
                below_end: 16,
            },
            _ => panic!("no target {name}"),
        }
    }
}

/// What came of a section's statepoints: how many were moved, how many pointers they had, of each sort of base and each
/// sort of derived slot, the most that one pair had, and how many were refused by each number.
#[derive(Debug, Default, PartialEq, Eq)]
pub struct Seen {
    pub moved: usize,
    pub pointers: BTreeMap<[Sort; 2], usize>,
    pub most: u64,
    pub refused: BTreeMap<u64, usize>,
}

/// Where a slot is.
#[derive(Clone, Copy, Debug, PartialEq, Eq, PartialOrd, Ord)]
pub enum Sort {
    Memory,
    Register,
}

/// A slot: in the eight bytes from an address on, or in a register.
#[derive(Clone, Copy, PartialEq, Eq, PartialOrd, Ord)]
enum Slot {
    Memory(u64),
    Register(u16),
}

impl Slot {
    fn sort(self) -> Sort {
        match self {
            Slot::Memory(_) => Sort::Memory,
            Slot::Register(_) => Sort::Register,
        }
    }
}

/// A frame of a thread that is made up: its stack and its registers. Around its part of the stack, image bytes of others
/// lie.
#[derive(Clone)]
struct Made {
    address: u64,
    first: u64,
    image: Vec<u8>,
    registers: Registers,
}

/// Where frames are made, and the bytes of others below and above.
const STACK: u64 = 0x7ffd_0000_4000;
const BEYOND: u64 = 48;

/// What register 0 holds where it is no slot; the others hold one more each.
const NO_POINTER: u64 = 0x4000_0000_0000;

/// The stack size that says that it is not known.
const UNKNOWN: u64 = u64::MAX;

/// Old starts, and how far apart they are; new ones, which are closer together, so that each object moves by a distance
/// of its own.
const OLD: u64 = 0x5000_0000_0000;
const APART: u64 = 0x1000;
const NEW: u64 = 0x6000_0000_0000;
const CLOSER: u64 = 0x0ff8;

/// The most pointers of a frame, and the most bytes of a location.
const POINTERS: u64 = 256;
const BYTES: u16 = 8 * 256;

/// How long a frame with a stack size is made.
fn made_length(stack_size: u64) -> u64 {
    if stack_size == UNKNOWN {
        4096
    } else {
        stack_size
    }
}

/// How far the frame pointer of a made frame is above its stack pointer.
fn above(target: Target, stack_size: u64) -> u64 {
    made_length(stack_size) - target.below_end
}

impl Made {
    fn new(target: Target, address: u64, stack_size: u64) -> Made {
        let image = (0..made_length(stack_size) + 2 * BEYOND)
            .map(|at| (at * 37 + 11) as u8)
            .collect();
        let mut registers = std::array::from_fn(|number| NO_POINTER + number as u64);
        registers[usize::from(target.frame_pointer)] = STACK + above(target, stack_size);
        registers[usize::from(target.stack_pointer)] = STACK;
        Made {
            address,
            first: STACK - BEYOND,
            image,
            registers,
        }
    }

    fn set(&mut self, slot: Slot, word: u64) {
        match slot {
            Slot::Memory(address) => {
                let at = (address - self.first) as usize;
                self.image[at..at + 8].copy_from_slice(&word.to_le_bytes());
            }
            Slot::Register(register) => self.registers[usize::from(register)] = word,
        }
    }

    /// The slots of all pointers of a location, where it is one of some.
    fn slots(&self, target: Target, location: &Location) -> Option<Vec<Slot>> {
        let pointers = [target.frame_pointer, target.stack_pointer];
        let count = usize::from(location.size) / 8;
        match location.value {
            Value::Indirect(register, offset) if pointers.contains(&register) => {
                let from = self.registers[usize::from(register)];
                let address = from.wrapping_add_signed(offset.into());
                let slots = (address..).step_by(8).take(count).map(Slot::Memory);
                let sized = location.size.is_multiple_of(8) && (8..=BYTES).contains(&location.size);
                sized.then(|| slots.collect())
            }
            Value::Register(register) if !pointers.contains(&register) => {
                let is_slot = register < target.registers && location.size == 8;
                is_slot.then(|| vec![Slot::Register(register)])
            }
            _ => None,
        }
    }
}

/// The pairs of a record, where it is a statepoint: three constants, of which the last is the number of values before
/// the pairs.
fn pairs(record: &Record) -> Option<Vec<[&Location; 2]>> {
    let leading = record.locations.get(..3)?;
    let count = leading.iter().map(|location| match location.value {
        Value::Constant(count) => Some(count as usize),
        _ => None,
    });
    let deopt = count.collect::<Option<Vec<usize>>>()?[2];
    let pairs = record.locations.get(3 + deopt..)?;
    let is_statepoint = pairs.len().is_multiple_of(2) && record.live_outs.is_empty();
    is_statepoint.then(|| {
        pairs
            .chunks_exact(2)
            .map(|pair| [&pair[0], &pair[1]])
            .collect()
    })
}

fn is_null(location: &Location) -> bool {
    matches!(location.value, Value::Constant(0) | Value::ConstIndex(_, 0))
}

/// What a statepoint's move must be.
enum Expected {
    /// The number and the place.
    Refused(u64, u64),
    /// The slots of each pointer, base and derived; and the number of null pairs.
    Moved(Vec<[Slot; 2]>, u64),
}

fn expected(target: Target, made: &Made, stack_size: u64, pairs: &[[&Location; 2]]) -> Expected {
    if stack_size == UNKNOWN {
        return Expected::Refused(16, 0);
    }
    let (mut pointers, mut nulls, mut outside) = (Vec::new(), 0, None);
    let end = STACK + stack_size;
    let inside = |slot: &Slot| match slot {
        Slot::Memory(address) => (STACK..end).contains(address) && end - address >= 8,
        Slot::Register(_) => true,
    };
    for (number, [base, derived]) in pairs.iter().enumerate() {
        let slots = [base, derived].map(|location| made.slots(target, location));
        match slots {
            _ if is_null(base) && is_null(derived) => nulls += 1,
            [Some(bases), Some(deriveds)] if bases.len() == deriveds.len() => {
                let all_inside = bases.iter().chain(&deriveds).all(inside);
                outside = outside.or((!all_inside).then_some(number as u64));
                pointers.extend(
                    bases
                        .into_iter()
                        .zip(deriveds)
                        .map(|(base, derived)| [base, derived]),
                );
            }
            _ => return Expected::Refused(18, number as u64),
        }
    }
    if pointers.len() as u64 + nulls > POINTERS {
        return Expected::Refused(17, 0);
    }
    match outside {
        Some(number) => Expected::Refused(19, number),
        None => Expected::Moved(pointers, nulls),
    }
}

/// Fills the slots and makes the table: each base slot has an object of its own, and each derived slot that is no base
/// slot points into its base's object, each at another place. Gives the frame after the move.
fn fill(made: &mut Made, pointers: &[[Slot; 2]]) -> (Vec<u64>, Vec<u64>, Made) {
    let mut objects = BTreeMap::new();
    for [base, _] in pointers {
        let number = objects.len() as u64;
        objects.entry(*base).or_insert(number);
    }
    let mut content = objects
        .iter()
        .map(|(base, number)| (*base, OLD + APART * number))
        .collect::<BTreeMap<_, _>>();
    for (place, [base, derived]) in pointers.iter().enumerate() {
        let inside = OLD + APART * objects[base] + 8 * (place as u64 + 1);
        content.entry(*derived).or_insert(inside);
    }
    for (slot, word) in &content {
        made.set(*slot, *word);
    }
    let mut after = made.clone();
    for [base, derived] in pointers {
        let number = objects[base];
        let distance = (NEW + CLOSER * number).wrapping_sub(OLD + APART * number);
        after.set(*derived, content[derived].wrapping_add(distance));
    }
    let old = (0..objects.len() as u64)
        .map(|number| OLD + APART * number)
        .collect();
    let new = (0..objects.len() as u64)
        .map(|number| NEW + CLOSER * number)
        .collect();
    (old, new, after)
}

/// The same section and text, but that each slot that was addressed by the stack pointer is addressed by the frame pointer,
/// in frames as they are made here. LLVM 14 takes the stack pointer for statepoints wherever it can.
pub fn by_frame_pointer(bytes: &[u8], mut printed: Printed, target: Target) -> (Vec<u8>, Printed) {
    let mut bytes = bytes.to_vec();
    let sizes: Vec<u64> = owners(&printed)
        .map(|(function, _)| printed.functions[function].stack_size)
        .collect();
    let mut first = 16 + 24 * printed.functions.len() + 8 * printed.constants.len();
    for (record, stack_size) in printed.records.iter_mut().zip(sizes) {
        for (number, location) in record.locations.iter_mut().enumerate() {
            let Value::Indirect(register, offset) = location.value else {
                continue;
            };
            // Functions that call nothing have no frame at all.
            if register == target.stack_pointer && stack_size >= target.below_end {
                let offset = offset - above(target, stack_size) as i32;
                location.value = Value::Indirect(target.frame_pointer, offset);
                let at = first + 16 + 12 * number;
                bytes[at + 4..at + 6].copy_from_slice(&target.frame_pointer.to_le_bytes());
                bytes[at + 8..at + 12].copy_from_slice(&offset.to_le_bytes());
            }
        }
        first += length(record);
    }
    (bytes, printed)
}

/// The first difference, if there is one, and what was seen.
pub fn compare(bytes: &[u8], printed: &Printed, target: Target) -> Result<Seen, String> {
    let mut seen = Seen::default();
    for ((function, start), record) in owners(printed).zip(&printed.records) {
        let Some(pairs) = pairs(record) else { continue };
        let stack_size = printed.functions[function].stack_size;
        let made = Made::new(target, start + u64::from(record.offset), stack_size);
        let within = |fault| format!("statepoint {}: {fault}", record.id);
        one(bytes, target, made, stack_size, &pairs, &mut seen).map_err(within)?;
    }
    Ok(seen)
}

fn one(
    bytes: &[u8],
    target: Target,
    mut made: Made,
    stack_size: u64,
    pairs: &[[&Location; 2]],
    seen: &mut Seen,
) -> Result<(), String> {
    let expected = expected(target, &made, stack_size, pairs);
    let pointers = match &expected {
        Expected::Moved(pointers, _) => &pointers[..],
        Expected::Refused(..) => &[],
    };
    let (old, new, after) = fill(&mut made, pointers);
    let (before, mut seconds) = (made.clone(), made.clone());
    let second = library::second(target, bytes, &mut seconds, &old, &new);
    let proved = library::proved(target, bytes, &mut made, &old, &new);
    same("the second answer", second, proved)?;
    same("the second frame", alike(&seconds, &made), true)?;
    match expected {
        Expected::Refused(number, place) => {
            same("the refusal", proved, Err((number, place)))?;
            same("the frame is as it was", alike(&made, &before), true)?;
            *seen.refused.entry(number).or_default() += 1;
        }
        Expected::Moved(pointers, nulls) => {
            same("the count", proved, Ok(pointers.len() as u64 + nulls))?;
            same("the frame after", alike(&made, &after), true)?;
            same(
                "the frame changed",
                !alike(&made, &before),
                !pointers.is_empty(),
            )?;
            seen.moved += 1;
            for slots in pointers {
                *seen.pointers.entry(slots.map(Slot::sort)).or_default() += 1;
            }
            let sizes = pairs
                .iter()
                .filter(|[base, _]| !is_null(base))
                .map(|[base, _]| u64::from(base.size) / 8);
            seen.most = seen.most.max(sizes.max().unwrap_or(0));
        }
    }
    Ok(())
}

/// Whether two frames have the same bytes and the same registers.
fn alike(one: &Made, other: &Made) -> bool {
    one.image == other.image && one.registers == other.registers
}

/// The two moves that are compared.
mod library {
    use super::{Made, Target};

    type Answer = Result<u64, (u64, u64)>;

    pub fn proved(
        target: Target,
        bytes: &[u8],
        made: &mut Made,
        old: &[u64],
        new: &[u64],
    ) -> Answer {
        let frame = treskibben::Frame::new(made.address);
        let (image, first, machine) = (&mut made.image, made.first, target.machine);
        let (table, registers) = (treskibben::MoveTable::new(old, new), &mut made.registers);
        let moved = treskibben::relocate(bytes, image, first, table, machine, frame, registers);
        let moved = moved.map(|count| count as u64);
        moved.map_err(|refusal| (refusal.number(), refusal.place()))
    }

    pub fn second(
        target: Target,
        bytes: &[u8],
        made: &mut Made,
        old: &[u64],
        new: &[u64],
    ) -> Answer {
        let frame = reference::Frame {
            address: made.address,
            function: 0,
        };
        let (image, first, machine) = (&mut made.image, made.first, target.machine.number());
        let registers = &mut made.registers;
        let moved = reference::relocate(bytes, image, first, old, new, machine, frame, registers);
        moved.map_err(|refusal| (refusal.number, refusal.place))
    }
}
