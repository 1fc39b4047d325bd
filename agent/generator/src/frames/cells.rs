//! The slots of a frame, their contents, and the pairs of pointers that name them.

use super::{registers, shuffle, slot_registers, Pool, Size, Table, REGISTERS};
use crate::layout::{Location, Record, Version};
use crate::rng::Rng;

/// Where a slot is: on the stack by its first byte, counted from the stack pointer, or in a register.
#[derive(Clone, Copy, Debug, PartialEq, Eq)]
enum Place {
    Stack(usize),
    Register(u16),
}

/// Slots that share no byte, first those on the stack in rising order, and the frame's length.
#[derive(Clone, Debug)]
pub(super) struct Cells {
    places: Vec<Place>,
    pub(super) length: usize,
    /// Whether all are to hold bases.
    bases: bool,
}

impl Cells {
    /// The slots of a frame of this size on this machine: one after the other, or with gaps, and now and
    /// then not at multiples of eight; and in any registers.
    pub(super) fn any(rng: &mut Rng, size: &Size, machine: u64) -> Cells {
        let gaps: &[usize] = match (size.wide, rng.below(3)) {
            (true, _) => &[0],
            (_, 0) => &[0, 1, 3, 7, 9],
            _ => &[0, 0, 0, 8, 16],
        };
        let ends: &[usize] = match size.wide {
            true => &[0, 1, 7, 8, 24],
            false => gaps,
        };
        let (mut places, mut length) = (Vec::new(), rng.pick(ends));
        for _ in 0..size.cells {
            places.push(length);
            length += 8 + rng.pick(gaps);
        }
        if rng.one_in(2) {
            length = places.last().map_or(0, |last| last + 8);
        }
        let mut registers = slot_registers(machine);
        shuffle(rng, &mut registers);
        registers.truncate(size.registers);
        let registers = registers.into_iter().map(Place::Register);
        Cells {
            places: places
                .into_iter()
                .map(Place::Stack)
                .chain(registers)
                .collect(),
            length,
            bases: size.wide,
        }
    }

    /// Sets the contents: bases that the table moves, 0, and mostly also pointers near an object and
    /// others. Registers that are no slots of these hold anything, an object's start too.
    pub(super) fn fill(
        &self,
        rng: &mut Rng,
        table: &Table,
        stretch: &mut [u8],
        registers: &mut [u64; REGISTERS],
    ) {
        stretch.fill_with(|| rng.byte());
        let zeros = rng.pick(&[1, 8]);
        let object = |rng: &mut Rng| match table.olds.len() {
            0 => 0,
            _ => rng.pick(&table.olds),
        };
        for register in registers.iter_mut() {
            *register = match rng.below(4) {
                0 => object(rng),
                _ => rng.number(64),
            };
        }
        for place in &self.places {
            let object = object(rng);
            let content = match rng.below(8) {
                0..=3 => object,
                4 | 5 if self.bases => object,
                4 => object.wrapping_add_signed(rng.below(400) as i64 - 200),
                5 => rng.number(64),
                _ if rng.below(8) < zeros => 0,
                _ => object,
            };
            match *place {
                Place::Stack(at) => stretch[at..at + 8].copy_from_slice(&content.to_le_bytes()),
                Place::Register(number) => registers[usize::from(number)] = content,
            }
        }
    }

    /// A content of the frame pointer from which all slots can be reached, or any.
    pub(super) fn frame_pointer(&self, rng: &mut Rng, stack_pointer: u64) -> u64 {
        let far = rng.number(31) as i64;
        let distance = match rng.below(6) {
            0 => 0,
            1 => self.length as i64,
            2 => rng.below(200) as i64,
            3 => -(rng.below(200) as i64),
            4 => far,
            _ => -far,
        };
        stack_pointer
            .checked_add_signed(distance)
            .unwrap_or(stack_pointer)
    }

    /// Adds pairs of so many pointers to the record, null pairs among them, which are one each. In
    /// version 3 a pair has one pointer or several, where slots stand one after the other. Pairs that
    /// share a derived slot have equal bases, and each base is one that the table moves.
    #[allow(clippy::too_many_arguments)]
    pub(super) fn pairs(
        &self,
        rng: &mut Rng,
        count: usize,
        contents_of: [u64; 2],
        pool: Pool,
        (stretch, registers): (&[u8], &[u64; REGISTERS]),
        table: &Table,
        record: &mut Record,
    ) {
        let content = |place: &Place| match *place {
            Place::Register(number) => registers[usize::from(number)],
            Place::Stack(at) => {
                let bytes = stretch[at..at + 8].try_into().expect("eight bytes");
                u64::from_le_bytes(bytes)
            }
        };
        let contents: Vec<u64> = self.places.iter().map(content).collect();
        let moved = |nth: &usize| table.moved(contents[*nth]).is_some();
        let bases: Vec<usize> = (0..contents.len()).filter(moved).collect();
        let (nulls, width) = (rng.pick(&[2, 8, 100]), rng.pick(&[1, 2, 5, 40, 256]));
        let mut derived_from: Vec<Option<u64>> = vec![None; contents.len()];
        let mut left = count;
        while left > 0 {
            let most = match (pool.version, rng.below(3)) {
                (Version::One, _) | (_, 0) => 1,
                (_, 1) => 1 + rng.below(width),
                _ => width,
            };
            let (mut pointers, mut pair) = (0, [0; 2]);
            if !bases.is_empty() && !rng.one_in(nulls) {
                let base = rng.pick(&bases);
                pair = self.two(rng, base);
                let fits = |nth: &usize| {
                    let [base, derived] = pair.map(|of| of + nth);
                    let free = |old: u64| derived_from[derived].is_none_or(|other| other == old);
                    self.follow(pair, *nth) && moved(&base) && free(contents[base])
                };
                pointers = (0..most.min(left)).take_while(fits).count();
            }
            left -= pointers.max(1);
            if pointers == 0 {
                record.locations.extend([pool.null(rng), pool.null(rng)]);
                continue;
            }
            for nth in 0..pointers {
                derived_from[pair[1] + nth] = Some(contents[pair[0] + nth]);
            }
            for nth in pair {
                let size = pool.slot_size(rng, pointers);
                let location = match self.places[nth] {
                    Place::Stack(place) => slot(rng, pool, size, place, contents_of),
                    Place::Register(number) => register(number, size),
                };
                record.locations.push(location);
            }
        }
    }

    /// The slots that a pair with this base begins with: the derived one is the same, near it, or any.
    fn two(&self, rng: &mut Rng, base: usize) -> [usize; 2] {
        let count = self.places.len();
        let derived = match rng.below(6) {
            0 | 1 => base,
            2 => (base + rng.below(4)).min(count - 1),
            3 => base.saturating_sub(rng.below(4)),
            _ => rng.below(count),
        };
        [base, derived]
    }

    /// Whether the nth slots after these two stand there without a gap: on the stack, or the two
    /// themselves.
    fn follow(&self, pair: [usize; 2], nth: usize) -> bool {
        pair.iter().all(|first| match self.places[*first] {
            Place::Stack(at) => self.places.get(first + nth) == Some(&Place::Stack(at + 8 * nth)),
            Place::Register(_) => nth == 0,
        })
    }
}

/// The location of this size that is a register.
pub(super) fn register(number: u16, size: u16) -> Location {
    Location {
        kind: 1,
        size,
        register: number,
        offset: 0,
    }
}

/// The location of this size at a slot, from the stack pointer or, where it can be reached, from the frame pointer.
fn slot(
    rng: &mut Rng,
    pool: Pool,
    size: u16,
    place: usize,
    [frame_pointer, stack_pointer]: [u64; 2],
) -> Location {
    let from_frame_pointer = i128::from(stack_pointer) + place as i128 - i128::from(frame_pointer);
    let [of_frame, of_stack] = registers(pool.machine);
    let (register, offset) = match i32::try_from(from_frame_pointer) {
        Ok(offset) if rng.one_in(2) => (of_frame, offset),
        _ => (of_stack, place as i32),
    };
    Location {
        kind: 3,
        size,
        register,
        offset: offset as u32,
    }
}
