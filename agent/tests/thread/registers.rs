//! Registers of threads: lists of every length, and those of each frame of a long list.

use crate::limits::{deep, expect, orders};
use generator::frames::{MOST_FRAMES, REGISTERS};
use generator::{Rng, Version};

/// Registers that are not 32 for each frame, by one, by a frame's, and by all.
#[test]
fn registers_of_every_length() {
    for (frames, version) in [0, 1, 2, 100, MOST_FRAMES, MOST_FRAMES + 1]
        .into_iter()
        .flat_map(|frames| Version::ALL.map(|version| (frames, version)))
    {
        let all = (REGISTERS * frames) as i64;
        for off in [
            1,
            -1,
            2,
            -2,
            16,
            -16,
            31,
            -31,
            32,
            -32,
            33,
            -33,
            1 - all,
            -all,
            all,
        ] {
            let mut thread = deep(version, frames);
            thread.off = off;
            let right = thread.registers().len() == REGISTERS * frames && frames <= MOST_FRAMES;
            assert_eq!(right, frames == 0 && off <= 0);
            assert_eq!(expect(&thread).number, if right { 0 } else { 25 });
            // Before any frame's own refusal.
            if let Some(stop) = thread.scene.stops.last_mut() {
                stop.address += 1;
                assert_eq!(expect(&thread).number, 25);
            }
        }
    }
}

/// Each frame of a long list has its base in a register, an object of its own, and registers of its own: each is
/// moved with those. One that is no start refuses all, wherever it is, and no register of any frame changes.
#[test]
fn registers_of_a_long_list() {
    const RBX: usize = 3;
    for version in Version::ALL {
        let mut thread = deep(version, MOST_FRAMES);
        for location in &mut thread.scene.section.records[0].locations[3..6] {
            (location.kind, location.register, location.offset) = (1, RBX as u16, 0);
        }
        let base = |nth: usize| 0x50000 + 0x40 * nth as u64;
        for (nth, stop) in thread.scene.stops.iter_mut().enumerate() {
            stop.registers[RBX] = base(nth);
        }
        let mut rng = Rng::new(7);
        for order in orders(&mut rng, MOST_FRAMES) {
            thread.order = order;
            let outcome = expect(&thread);
            assert_eq!(outcome.answer(), (0, 0, 2 * MOST_FRAMES as u64));
            for (own, stop) in outcome.registers.chunks(REGISTERS).zip(&thread.order) {
                assert_eq!(own[RBX], base(MOST_FRAMES - stop));
            }
            for position in [0, 1, 2_047, MOST_FRAMES - 1] {
                let stop = thread.order[position];
                thread.scene.stops[stop].registers[RBX] += 8;
                let outcome = expect(&thread);
                assert_eq!(outcome.answer(), (21, position as u64, 0));
                assert!(outcome.registers == thread.registers());
                thread.scene.stops[stop].registers[RBX] -= 8;
            }
        }
    }
}
