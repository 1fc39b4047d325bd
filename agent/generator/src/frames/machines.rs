//! The machines: their pointers, the registers that are slots, and frames taken from one to the other.

use super::{Scene, REGISTERS};
use crate::layout::Location;

/// The numbers of the machines, AMD64 and AArch64, each with the DWARF numbers of its frame pointer and its
/// stack pointer.
pub const MACHINES: [(u64, [u16; 2]); 2] = [(0, [6, 7]), (1, [29, 31])];

/// How many registers of each machine can hold a pointer of a pair, its two pointers among them.
const LIMITS: [u16; 2] = [16, 32];

/// The DWARF numbers of frame pointer and stack pointer of the machine with this number.
pub fn registers(machine: u64) -> [u16; 2] {
    let own = MACHINES.iter().find(|(number, _)| *number == machine);
    own.expect("a machine").1
}

/// The DWARF numbers of the registers that are slots on the machine with this number, in rising order.
pub fn slot_registers(machine: u64) -> Vec<u16> {
    let pointers = registers(machine);
    (0..LIMITS[machine as usize])
        .filter(|number| !pointers.contains(number))
        .collect()
}

impl Scene {
    /// The same frames on the other machine: its frame pointer stands in every location where this one's
    /// did, its stack pointer likewise, slots in registers are slots in registers there, and a register
    /// that is none is none. All is answered as before. `None` where the other machine has too few
    /// registers.
    pub fn on_other_machine(&self) -> Option<Scene> {
        let mut scene = self.clone();
        scene.machine = 1 - self.machine;
        let renamed = self.renamed()?;
        let records = scene.section.records.iter_mut();
        for location in records.flat_map(|record| &mut record.locations) {
            location.register = match renamed.get(usize::from(location.register)) {
                Some(other) => *other,
                None => location.register,
            };
        }
        for (stop, own) in scene.stops.iter_mut().zip(&self.stops) {
            stop.registers = [0x7000; REGISTERS];
            for (from, to) in renamed.iter().enumerate() {
                if let Some(register) = stop.registers.get_mut(usize::from(*to)) {
                    *register = own.registers[from];
                }
            }
        }
        Some(scene)
    }

    /// What each register is called on the other machine: its pointers are this one's, its slots the
    /// ones that locations name, and what is no slot of this machine is past the list there.
    fn renamed(&self) -> Option<[u16; REGISTERS]> {
        let mut renamed: [u16; REGISTERS] = std::array::from_fn(|nth| (REGISTERS + nth) as u16);
        let slots = slot_registers(self.machine);
        let locations = self.section.records.iter().flat_map(|one| &one.locations);
        let mut named: Vec<u16> = locations
            .filter(|one| one.kind == 1 && slots.contains(&one.register))
            .map(|one| one.register)
            .collect();
        named.sort();
        named.dedup();
        let others = slot_registers(1 - self.machine);
        if named.len() > others.len() {
            return None;
        }
        for (own, other) in named.into_iter().zip(others) {
            renamed[usize::from(own)] = other;
        }
        let pointers = registers(self.machine).into_iter();
        for (own, other) in pointers.zip(registers(1 - self.machine)) {
            renamed[usize::from(own)] = other;
        }
        Some(renamed)
    }
}

/// Whether a location names a register that is a slot of this machine, whatever its size.
pub(super) fn is_slot_register(location: &Location, machine: u64) -> bool {
    let own = slot_registers(machine).contains(&location.register);
    location.kind == 1 && location.offset == 0 && own
}
