//! The move of a whole thread, of one frame and of as many as there may be, in several orders of the list: on the large
//! section, and on one whose records are as short as they can be, so that most of them have to be looked up.

use crate::measure::{measure, say, table};
use crate::section;
use std::hint::black_box;
use treskibben::{Frame, Index, Machine, MoveTable, Registers};

const CHECK: &str = "treskibben check";
const FIND: &str = "question by address";
const ALONE: &str = "the same frame moved by itself";
const ONE: &str = "thread of one frame";
const RISING: &str = "thread of 4,096 frames, addresses rising";
const FALLING: &str = "thread of 4,096 frames, addresses falling";
const MIXED: &str = "thread of 4,096 frames, in any order";
const CROSSED: &str = "thread of 4,096 frames, stack rising, code in any order";
const EXTENTS_RISING: &str = "4,096 frames at one address, rising";
const EXTENTS_FALLING: &str = "4,096 frames at one address, falling";
const EXTENTS_MIXED: &str = "4,096 frames at one address, in any order";

/// The ratios to reach to the check of the same section, for one frame and for all.
const MOST_FOR_ONE: f64 = 1.1;
const MOST_FOR_ALL: f64 = 2.0;

const FRAMES: usize = 4_096;
const OBJECTS: u64 = 65_536;
pub const STACK: u64 = 0x7fff_0000_0000;
const WORD: u64 = 8;

/// The most bytes of a frame: on both sections the frames then fit in the largest image.
const MOST_BYTES: u64 = 320;

/// A stack with the frames one above the other, in the order of their records.
///
/// Every word of it is the start of one object among many that are all where they were: each base is searched for and
/// found, each derived slot is written, and the same list can be moved again and again.
pub struct Stack {
    pub image: Vec<u8>,
    objects: Vec<u64>,
    frames: List,
    pairs: usize,
}

/// A list of frames, and their registers, which no move here changes.
#[derive(Clone, Default)]
pub struct List {
    pub frames: Vec<Frame>,
    pub registers: Vec<Registers>,
}

impl List {
    fn push(&mut self, frame: Frame, stack_pointer: u64) {
        self.frames.push(frame);
        let registers = Machine::Amd64.registers(0, stack_pointer);
        self.registers.push(registers);
    }

    /// The frames of these numbers.
    fn of(&self, numbers: impl Iterator<Item = usize>) -> List {
        let mut list = List::default();
        for nth in numbers {
            list.frames.push(self.frames[nth]);
            list.registers.push(self.registers[nth]);
        }
        list
    }
}

/// Rows on the large section and on one of short records.
pub fn rows(rounds: usize, large: &[u8], limit: usize) {
    on(rounds, "the large section", large);
    on(
        rounds,
        "the section of short records",
        &section::short_records(limit, FRAMES),
    );
    extents(rounds);
}

/// What it costs to compare extents: frames of one word at one record, so that only the order of the extents differs. In
/// rising order each is put after all others; in falling order all others go up by one.
fn extents(rounds: usize) {
    let bytes = section::statepoint_with_pairs(1);
    let stack = Stack::at_one_record();
    let [_, rising, falling, mixed] = stack.lists();
    let action = |list: &List| {
        let (stack, bytes, mut image) = (&stack, &bytes, stack.image.clone());
        let mut list = list.clone();
        move || {
            black_box(stack.moved(bytes, &mut list, &mut image));
        }
    };
    let rows = measure(
        rounds,
        &mut [
            (EXTENTS_RISING, &mut action(&rising)),
            (EXTENTS_FALLING, &mut action(&falling)),
            (EXTENTS_MIXED, &mut action(&mixed)),
        ],
    );
    println!(
        "\none record; {FRAMES} frames with one pair each\n\n{}",
        table(&rows, &[EXTENTS_RISING])
    );
}

fn on(rounds: usize, name: &str, bytes: &[u8]) {
    let Ok(read) = reference::section::read(bytes) else {
        panic!("the second implementation refuses {name}")
    };
    let (stack, other) = (Stack::new(&read), Stack::crossed(&read));
    println!(
        "\n{name}: {} bytes, {} records; {FRAMES} frames with {} pairs",
        bytes.len(),
        read.records.len(),
        stack.pairs
    );
    let [one, rising, falling, mixed] = stack.lists();
    [&rising, &falling, &mixed]
        .iter()
        .for_each(|list| stack.assert_moved(name, bytes, list));
    let action = |list: &List| {
        let (stack, mut list, mut image) = (&stack, list.clone(), stack.image.clone());
        move || {
            black_box(stack.moved(bytes, &mut list, &mut image));
        }
    };
    let ([_, mut crossed, ..], mut others) = (other.lists(), other.image.clone());
    let mut crossed = || {
        black_box(other.moved(bytes, &mut crossed, &mut others));
    };
    let (mut image, mut registers) = (stack.image.clone(), one.registers[0]);
    let mut alone = || {
        let _ = black_box(treskibben::relocate(
            black_box(bytes),
            &mut image,
            STACK,
            stack.table(),
            Machine::Amd64,
            one.frames[0],
            &mut registers,
        ));
    };
    let rows = measure(
        rounds,
        &mut [
            (CHECK, &mut crate::on(bytes, treskibben::check)),
            (
                FIND,
                &mut crate::on(bytes, |bytes| {
                    treskibben::find(bytes, black_box(one.frames[0].address))
                }),
            ),
            (ALONE, &mut alone),
            (ONE, &mut action(&one)),
            (RISING, &mut action(&rising)),
            (FALLING, &mut action(&falling)),
            (MIXED, &mut action(&mixed)),
            (CROSSED, &mut crossed),
        ],
    );
    println!("\n{}", table(&rows, &[CHECK]));
    say(&rows, ONE, CHECK, "the check", MOST_FOR_ONE);
    for row in [RISING, FALLING, MIXED, CROSSED] {
        say(&rows, row, CHECK, "the check", MOST_FOR_ALL);
    }
}

impl Stack {
    /// Frames at statepoints all over the section, of those that have pairs, all inside their frame.
    pub fn new(section: &reference::Section) -> Stack {
        Stack::in_order(section, |nth| nth)
    }

    /// The same frames, one above the other in another order than that of their records.
    fn crossed(section: &reference::Section) -> Stack {
        Stack::in_order(section, any_order)
    }

    fn in_order(section: &reference::Section, order: fn(usize) -> usize) -> Stack {
        let all: Vec<(u64, u64, usize)> = section
            .records
            .iter()
            .filter_map(|record| fitting(section, record))
            .collect();
        assert!(
            all.len() >= FRAMES,
            "only {} statepoints can be moved",
            all.len()
        );
        let (mut frames, mut bytes, mut pairs) = (List::default(), 0, 0);
        for nth in 0..FRAMES {
            let (address, size, own) = all[order(nth) * all.len() / FRAMES];
            frames.push(Frame::new(address), STACK + bytes);
            bytes += size;
            pairs += own;
        }
        Stack::of(frames, bytes, pairs)
    }

    /// Frames of one word, all at the record of a section with one pair.
    fn at_one_record() -> Stack {
        let mut frames = List::default();
        for nth in 0..FRAMES as u64 {
            frames.push(Frame::new(section::STATEPOINT), STACK + WORD * nth);
        }
        Stack::of(frames, WORD * FRAMES as u64, FRAMES)
    }

    fn of(frames: List, bytes: u64, pairs: usize) -> Stack {
        let objects: Vec<u64> = (1..=OBJECTS).map(|nth| 0x10_0000 + 64 * nth).collect();
        let base = objects[OBJECTS as usize / 3];
        let image = (0..bytes / WORD).flat_map(|_| base.to_le_bytes()).collect();
        Stack {
            image,
            objects,
            frames,
            pairs,
        }
    }

    /// The last frame alone, and all of them: rising, falling and in any order.
    pub fn lists(&self) -> [List; 4] {
        let all = &self.frames;
        [
            all.of(FRAMES - 1..FRAMES),
            all.clone(),
            all.of((0..FRAMES).rev()),
            all.of((0..FRAMES).map(any_order)),
        ]
    }

    pub fn table(&self) -> MoveTable<'_> {
        MoveTable::new(&self.objects, &self.objects)
    }

    pub fn moved(&self, section: &[u8], list: &mut List, image: &mut [u8]) -> usize {
        let (table, machine) = (self.table(), Machine::Amd64);
        let section = black_box(section);
        let (frames, registers) = (&list.frames, list.registers.as_flattened_mut());
        let moved =
            treskibben::relocate_thread(section, image, STACK, table, machine, frames, registers);
        moved.unwrap_or_else(|refusal| panic!("the library refuses the thread: {refusal}"))
    }

    /// All pairs of the list are moved, and no byte changes: the objects stay where they were.
    fn assert_moved(&self, name: &str, section: &[u8], list: &List) {
        let mut image = self.image.clone();
        assert_eq!(
            self.moved(section, &mut list.clone(), &mut image),
            self.pairs,
            "the pairs on {name}"
        );
        assert!(
            image == self.image,
            "objects that stay where they were change no byte"
        );
    }

    /// Moves the frames with an index of the section.
    pub fn moved_by(&self, index: &Index, list: &mut List, image: &mut [u8]) -> usize {
        let (table, machine) = (self.table(), Machine::Amd64);
        let (frames, lent) = (&list.frames, list.registers.as_flattened_mut());
        let moved = black_box(index).relocate_thread(image, STACK, table, machine, frames, lent);
        moved.unwrap_or_else(|refusal| panic!("the library refuses the thread: {refusal}"))
    }
}

/// The number of a frame that comes at this place of a list in any order. 1,597 and 4,096 have no divisor in common: each
/// comes once.
fn any_order(nth: usize) -> usize {
    nth * 1_597 % FRAMES
}

/// Address, stack size and number of pairs of a statepoint in a short frame that has all its slots.
fn fitting(section: &reference::Section, record: &reference::Record) -> Option<(u64, u64, usize)> {
    let size = section.functions.get(record.function)?.stack_size;
    let (constants, rest) = record.locations.split_first_chunk::<3>()?;
    let statepoint =
        constants.iter().all(|location| location.kind == 4) && record.live_outs.is_empty();
    let slots = rest.get(usize::try_from(constants[2].offset).ok()?..)?;
    let inside = |offset: i32| u64::try_from(offset).is_ok_and(|offset| offset + WORD <= size);
    let fits = slots
        .iter()
        .all(|slot| (slot.kind, slot.register) == (3, 7) && inside(slot.offset));
    let movable = statepoint && fits && size <= MOST_BYTES && slots.len() >= 2;
    movable.then_some((record.address, size, slots.len() / 2))
}

#[cfg(test)]
mod tests {
    use super::*;

    /// What is measured is accepted, in each order, and comes to the same image.
    #[test]
    fn all_frames_can_be_moved_again_and_again() {
        let sections = [
            section::build(crate::LIMIT),
            section::short_records(1_000_000, FRAMES),
        ];
        let mut all = vec![(section::statepoint_with_pairs(1), Stack::at_one_record())];
        for bytes in sections {
            let Ok(read) = reference::section::read(&bytes) else {
                panic!("the section is refused")
            };
            all.push((bytes.clone(), Stack::new(&read)));
            all.push((bytes, Stack::crossed(&read)));
        }
        for (bytes, stack) in all {
            assert!(stack.pairs >= FRAMES && stack.image.len() <= 1_048_576);
            for list in stack.lists() {
                let numbers = treskibben::Frames::new(&list.frames).numbers();
                let (mut image, mut registers) = (stack.image.clone(), list.registers.clone());
                let moved = reference::thread(
                    &bytes,
                    &mut image,
                    STACK,
                    &stack.objects,
                    &stack.objects,
                    Machine::Amd64.number(),
                    numbers,
                    registers.as_flattened_mut(),
                );
                let one = list.frames.len() == 1;
                assert!(
                    moved.is_ok_and(|pairs| one || pairs == stack.pairs as u64),
                    "{moved:?}"
                );
                assert!(image == stack.image && registers == list.registers);
            }
        }
    }
}
