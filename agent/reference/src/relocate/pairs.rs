//! The pairs of a statepoint: their form, their pointers and the new contents.
//!
//! A location of a pair names a place on the stack or a register. A pair of
//! size 8N is N pointers one after another: the slots of pointer i are 8i bytes
//! after the first bytes of its two locations. A register holds one pointer. In
//! version 1 a pair is always one pointer, and so is a null pair in both
//! versions.
//!
//! The refusals 18, 19, 20 and 21 are each judged over all pairs before the
//! next, and each is placed at the lowest pair with the fault, whichever of its
//! pointers has it.

use super::REGISTERS;
use crate::machine::Machine;
use crate::questions::constant;
use crate::section::{Location, Section, Version};
use crate::Refusal;

/// The most pointers of a statepoint, null pairs counting one each, where
/// nothing else is set; and the most of one pair.
pub(crate) const MAX_POINTERS: usize = 256;

/// The length of a slot on the stack.
const SLOT: usize = 8;

/// What a location of right form names.
#[derive(Clone, Copy)]
enum Place {
    /// The register of this number, one that is a slot.
    Register(usize),
    /// The stack from this address on, as a whole number, which may lie outside
    /// the 64-bit addresses.
    Stack(i128),
}

/// A pair of right form that isn't null: its two places, and how many pointers
/// it is.
pub(super) struct Form {
    base: Place,
    derived: Place,
    pointers: usize,
}

/// A slot: a register, or eight bytes inside the frame's extent by their first,
/// counted from the stack pointer.
#[derive(Clone, Copy, Debug, PartialEq, Eq)]
pub(crate) enum Slot {
    Register(usize),
    Memory(usize),
}

/// A slot and what it holds before the call.
#[derive(Clone, Copy)]
pub(crate) struct Cell {
    pub(crate) slot: Slot,
    pub(crate) content: u64,
}

/// A pointer: the slot of its base and its own.
pub(crate) struct Pointer {
    pub(crate) base: Cell,
    pub(crate) derived: Cell,
}

/// The form of each pair, `None` for a null one: refusal 18 over all pairs.
pub(super) fn forms(
    section: &Section,
    entries: &[[Location; 2]],
    machine: Machine,
    registers: &[u64; REGISTERS],
) -> Result<Vec<Option<Form>>, Refusal> {
    let numbered = entries.iter().enumerate();
    numbered
        .map(|(number, entry)| {
            let zero = |location| constant(section, location) == Some(0);
            if entry.iter().all(zero) {
                return Ok(None);
            }
            let form = form(section.version, entry, machine, registers);
            form.map(Some).ok_or(Refusal::at(18, number))
        })
        .collect()
}

/// The form of a pair that isn't null, if it is right.
fn form(
    version: Version,
    [base, derived]: &[Location; 2],
    machine: Machine,
    registers: &[u64; REGISTERS],
) -> Option<Form> {
    let pointers = pointers(version, base.size, derived.size)?;
    let place = |location: &Location| match location.kind {
        1 if pointers == 1 => register(location, machine),
        3 => address(location, machine, registers),
        _ => None,
    };
    Some(Form {
        base: place(base)?,
        derived: place(derived)?,
        pointers,
    })
}

/// How many pointers a pair of these two sizes is. In version 1 each of the
/// sizes is 0 or 8; in version 3 both are equal and 8 to 2,048 by eights.
fn pointers(version: Version, base: u16, derived: u16) -> Option<usize> {
    match version {
        Version::One => {
            let one = |size| size == 0 || size == 8;
            (one(base) && one(derived)).then_some(1)
        }
        Version::Three => {
            let size = usize::from(base);
            let whole = base == derived && size.is_multiple_of(SLOT);
            let pointers = size / SLOT;
            (whole && (1..=MAX_POINTERS).contains(&pointers)).then_some(pointers)
        }
    }
}

/// The register that a Register location names, if its offset is 0 and the
/// machine's register of that number is a slot.
fn register(location: &Location, machine: Machine) -> Option<Place> {
    let right = location.offset == 0 && machine.is_slot(location.register);
    right.then_some(Place::Register(location.register.into()))
}

/// The address that an Indirect location names by one of the machine's two
/// pointers.
fn address(location: &Location, machine: Machine, registers: &[u64; REGISTERS]) -> Option<Place> {
    let pointers = [machine.frame_pointer(), machine.stack_pointer()];
    if !pointers.contains(&location.register) {
        return None;
    }
    let content = *registers.get(usize::from(location.register))?;
    let address = i128::from(content) + i128::from(location.offset);
    Some(Place::Stack(address))
}

/// The number of pointers, null pairs counting one each.
pub(super) fn count(forms: &[Option<Form>]) -> usize {
    let pointers = |form: &Option<Form>| form.as_ref().map_or(1, |form| form.pointers);
    forms.iter().map(pointers).sum()
}

/// Finds the slots of all pointers, pair by pair, and reads them: refusal 19
/// over all pairs. A null pair has none. `stretch` are the bytes of the frame's
/// extent, which begins at the stack pointer.
pub(super) fn locate(
    forms: &[Option<Form>],
    stretch: &[u8],
    stack_pointer: u64,
    registers: &[u64; REGISTERS],
) -> Result<Vec<Vec<Pointer>>, Refusal> {
    let cell = |place: Place, nth: usize| match place {
        Place::Register(number) => Some(Cell {
            slot: Slot::Register(number),
            content: *registers.get(number)?,
        }),
        Place::Stack(address) => {
            let after = (SLOT * nth) as i128;
            memory(stretch, address + after - i128::from(stack_pointer))
        }
    };
    let pointer = |form: &Form, nth: usize| {
        Some(Pointer {
            base: cell(form.base, nth)?,
            derived: cell(form.derived, nth)?,
        })
    };
    let mut pairs = Vec::new();
    for (number, form) in forms.iter().enumerate() {
        let slots = form.as_ref().map_or(Some(Vec::new()), |form| {
            (0..form.pointers).map(|nth| pointer(form, nth)).collect()
        });
        pairs.push(slots.ok_or(Refusal::at(19, number))?);
    }
    Ok(pairs)
}

/// Reads the slot that begins so many bytes from the stack pointer, if it is
/// wholly inside the frame's extent.
fn memory(stretch: &[u8], from_stack_pointer: i128) -> Option<Cell> {
    let at = usize::try_from(from_stack_pointer).ok()?;
    let content = stretch.get(at..)?.first_chunk::<SLOT>()?;
    Some(Cell {
        slot: Slot::Memory(at),
        content: u64::from_le_bytes(*content),
    })
}

/// The lowest pair that collides with itself or an earlier one: any pointer of
/// the one with any of the other.
pub(super) fn collision(pairs: &[Vec<Pointer>]) -> Option<usize> {
    pairs.iter().enumerate().position(|(number, pair)| {
        let up_to = pairs.iter().take(number + 1).flatten();
        pair.iter()
            .any(|pointer| up_to.clone().any(|other| collides(pointer, other)))
    })
}

/// Whether two of the slots of two pointers overlap without being equal, or the
/// derived slots are equal and the old bases differ.
fn collides(one: &Pointer, other: &Pointer) -> bool {
    let slots = [&one.base, &one.derived, &other.base, &other.derived].map(|cell| cell.slot);
    let overlap = slots
        .iter()
        .any(|one| slots.iter().any(|two| overlaps(*one, *two)));
    let same = one.derived.slot == other.derived.slot;
    overlap || (same && one.base.content != other.base.content)
}

/// Whether two slots share a byte without being equal. A register equals only
/// itself and never overlaps memory.
fn overlaps(one: Slot, other: Slot) -> bool {
    match (one, other) {
        (Slot::Memory(one), Slot::Memory(other)) => one != other && one.abs_diff(other) < SLOT,
        _ => false,
    }
}

/// The new content of each derived slot; refusal 21 at the lowest pair with a
/// base that is neither 0 nor an old start.
pub(super) fn new_contents(
    pairs: &[Vec<Pointer>],
    table: [&[u64]; 2],
) -> Result<Vec<(Slot, u64)>, Refusal> {
    let mut contents = Vec::new();
    for (number, pair) in pairs.iter().enumerate() {
        for Pointer { base, derived } in pair {
            let old_base = base.content;
            let new_base = moved(old_base, table).ok_or(Refusal::at(21, number))?;
            let content = derived.content.wrapping_add(new_base);
            contents.push((derived.slot, content.wrapping_sub(old_base)));
        }
    }
    Ok(contents)
}

/// Where the object that starts at `old_base` has moved; 0 moves to 0.
pub(crate) fn moved(old_base: u64, [old_starts, new_starts]: [&[u64]; 2]) -> Option<u64> {
    if old_base == 0 {
        return Some(0);
    }
    let entry = old_starts.binary_search(&old_base).ok()?;
    new_starts.get(entry).copied()
}
