//! The move of one frame: on the large section, where finding its record is nearly all of the work, and on a small
//! one with as many pairs and as many moved objects as there can be.

use crate::measure::{measure, say, table, Row};
use crate::section::{statepoint_of_selves, statepoint_with_pairs, STATEPOINT};
use std::hint::black_box;
use treskibben::{Frame, Machine, MoveTable, Registers};

const CHECK: &str = "treskibben check";
const LARGE: &str = "one frame on the large section";
const MANY: &str = "one frame, 256 pairs";
const FEW: &str = "one frame, no pairs";
const SELVES: &str = "256 slots, a pair each";
const SINGLE: &str = "256 slots in one pair";
const REFERENCE: &str = "reference";

/// The ratios to reach: to the check of the same section, and to the second implementation.
const MOST_OF_CHECK: f64 = 1.1;
const MOST_OF_REFERENCE: f64 = 1.1;
const MOST_OF_PAIRS: f64 = 1.0;

/// Pairs and objects of the small section's frame.
const PAIRS: usize = 256;
const OBJECTS: u64 = 65_536;

/// Moves of the small frame in one measured action: one alone takes too little time.
const TIMES: usize = 20;

/// The address of the image.
const STACK: u64 = 0x7fff_0000_0000;

/// A stack image and the frame on it. It can be moved again and again: each new start is an old start too.
struct Stack {
    section: Vec<u8>,
    image: Vec<u8>,
    olds: Vec<u64>,
    news: Vec<u64>,
    frame: Frame,
    registers: Registers,
}

/// Rows on the large section and on a small one.
pub fn rows(rounds: usize, bytes: &[u8]) {
    let large = on_large(rounds, bytes);
    println!("\n{}", table(&large, &[CHECK]));
    say(&large, LARGE, CHECK, "the check", MOST_OF_CHECK);
    let small = on_small(rounds);
    println!("\n{}", table(&small, &[REFERENCE]));
    say(&small, MANY, REFERENCE, "the reference", MOST_OF_REFERENCE);
    say(&small, SINGLE, SELVES, "a pair each", MOST_OF_PAIRS);
    let time = |name: &str| {
        small
            .iter()
            .find(|row| row.name == name)
            .map_or(0.0, |row| row.median)
    };
    let pair = |more: &str| (time(more) - time(FEW)) * 1e6 / (TIMES * PAIRS) as f64;
    println!("{TIMES} moves of one frame in each row, with a table of {OBJECTS} objects; the reference has 256 pairs too");
    println!("a pair of 256 on average: {:.0} ns, with its comparison to all before it, without the table check", pair(MANY));
}

/// The frame of the last statepoint whose pairs can be moved, on an image of its own; every base is 0.
fn on_large(rounds: usize, bytes: &[u8]) -> Vec<Row> {
    let Ok(read) = reference::section::read(bytes) else {
        panic!("the second implementation refuses the section")
    };
    let mut image = vec![0; 1_048_576];
    let mut registers = Machine::Amd64.registers(0, STACK);
    let mut relocate = |address: u64| {
        let frame = Frame::new(black_box(address));
        treskibben::relocate(
            black_box(bytes),
            &mut image,
            STACK,
            MoveTable::default(),
            Machine::Amd64,
            frame,
            &mut registers,
        )
    };
    let addresses = read.records.iter().rev().map(|record| record.address);
    let moved = |address| {
        relocate(address)
            .ok()
            .filter(|count| *count > 0)
            .map(|count| (address, count))
    };
    let Some((address, count)) = addresses.take(100).find_map(moved) else {
        panic!("no frame can be moved")
    };
    println!("\nthe frame on the large section has {count} pointers");
    measure(
        rounds,
        &mut [
            (CHECK, &mut crate::on(bytes, treskibben::check)),
            (LARGE, &mut || {
                let _ = black_box(relocate(address));
            }),
        ],
    )
}

impl Stack {
    /// A frame with so many pairs, every two of which have an object of their own.
    fn new(pairs: usize) -> Stack {
        let start = |nth: u64| 0x10_0000 + 64 * nth;
        let olds: Vec<u64> = (0..OBJECTS).map(start).collect();
        let news = (0..OBJECTS).map(|nth| start(OBJECTS - 1 - nth)).collect();
        let mut image = Vec::new();
        for pair in 0..pairs as u64 / 2 {
            let base = start(pair * 509 % OBJECTS);
            image.extend([base, base + 24].map(u64::to_le_bytes).concat());
        }
        let section = statepoint_with_pairs(pairs);
        Stack {
            section,
            image,
            olds,
            news,
            frame: Frame::new(STATEPOINT),
            registers: Machine::Amd64.registers(0, STACK),
        }
    }

    /// A frame of 256 slots, each its own base, so many to a pair.
    fn of_selves(to_a_pair: usize) -> Stack {
        let mut stack = Stack::new(0);
        stack.section = statepoint_of_selves(PAIRS, to_a_pair);
        let starts = (0..PAIRS).map(|slot| stack.olds[slot * 251].to_le_bytes());
        stack.image = starts.collect::<Vec<_>>().concat();
        stack
    }

    fn by_library(&mut self) {
        let table = MoveTable::new(&self.olds, &self.news);
        for _ in 0..TIMES {
            let section = black_box(&self.section);
            let (image, machine) = (&mut self.image, Machine::Amd64);
            let (frame, lent) = (self.frame, &mut self.registers);
            let moved = treskibben::relocate(section, image, STACK, table, machine, frame, lent);
            assert!(black_box(moved).is_ok(), "the library refuses the frame");
        }
    }

    fn by_reference(&mut self) {
        let Frame { address, function } = self.frame;
        let frame = reference::Frame { address, function };
        for _ in 0..TIMES {
            let section = black_box(&self.section);
            let moved = reference::relocate(
                section,
                &mut self.image,
                STACK,
                &self.olds,
                &self.news,
                Machine::Amd64.number(),
                frame,
                &mut self.registers,
            );
            assert!(
                black_box(moved).is_ok(),
                "the second implementation refuses the frame"
            );
        }
    }
}

fn on_small(rounds: usize) -> Vec<Row> {
    let (mut many, mut second, mut few) = (Stack::new(PAIRS), Stack::new(PAIRS), Stack::new(0));
    let (mut selves, mut single) = (Stack::of_selves(1), Stack::of_selves(PAIRS));
    let before = many.image.clone();
    let table = MoveTable::new(&many.olds, &many.news);
    let (image, machine) = (&mut many.image, Machine::Amd64);
    let (section, frame, lent) = (&many.section, many.frame, &mut many.registers);
    let moved = treskibben::relocate(section, image, STACK, table, machine, frame, lent);
    assert_eq!(moved, Ok(PAIRS), "the frame on the small section");
    assert!(many
        .image
        .chunks_exact(8)
        .zip(before.chunks_exact(8))
        .all(|(after, before)| after != before));
    measure(
        rounds,
        &mut [
            (MANY, &mut || many.by_library()),
            (REFERENCE, &mut || second.by_reference()),
            (FEW, &mut || few.by_library()),
            (SELVES, &mut || selves.by_library()),
            (SINGLE, &mut || single.by_library()),
        ],
    )
}
