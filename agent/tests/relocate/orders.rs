//! What must not count: the order of pairs, and the bytes and registers outside the slots.

use crate::calls::Call;
use crate::common::{count_random, say};
use crate::make;
use generator::frames::faults::NUMBERS;
use generator::frames::plain::{self, Slot};
use generator::frames::{Scene, MACHINES};
use generator::Rng;

const PARTS: u64 = 300;
const FRAMES_A_PART: u64 = 200;

/// How often each number was the answer, 0 to 33.
type Counts = [u64; 34];

fn frame(rng: &mut Rng) -> (Scene, Vec<u8>, u64) {
    let mut scene = Scene::one(rng);
    let mut number = 0;
    if !rng.one_in(3) {
        let faults = [rng.pick(&NUMBERS), rng.pick(&NUMBERS)];
        let few = 1 + usize::from(rng.one_in(4));
        number = make(rng, &mut scene, &faults[..few]).0;
    }
    let section = scene.section.encode();
    (scene, section, number)
}

/// Another order of pairs changes nothing but the place of 18 to 21.
fn permuted(rng: &mut Rng, counts: &mut Counts) {
    let (scene, section, number) = frame(rng);
    let outcome = Call::of(&scene, &section, 0).compare();
    let other = scene.permuted(rng).encode();
    let call = Call::of(&scene, &other, 0);
    let mut other = call.compare();
    if (18..=21).contains(&number) {
        other.place = outcome.place;
    }
    if outcome != other {
        call.fail(&format!(
            "{other:?}, and with the pairs in another order {outcome:?}"
        ));
    }
    counts[outcome.number as usize] += 1;
}

/// Which bytes of the image, and which registers, may count for a frame with this number as answer.
fn what_counts(scene: &Scene, number: u64) -> (Vec<bool>, Vec<usize>) {
    let mut listed = vec![false; scene.image.len()];
    // A number that is no machine is refused before any register is read.
    let pointers = MACHINES.iter().filter(|(own, _)| *own == scene.machine);
    let pointers = pointers.flat_map(|(_, pointers)| pointers.map(usize::from));
    let mut read: Vec<usize> = pointers.collect();
    if [0, 20, 21].contains(&number) {
        let at = (scene.stack_pointer(0) - scene.first) as usize;
        for slot in plain::slots(scene, 0).into_iter().flatten().flatten() {
            match slot {
                Slot::Stack(slot) => listed[at + slot as usize..][..8].fill(true),
                Slot::Register(register) => read.push(register),
            }
        }
    }
    (listed, read)
}

/// The bytes outside the slots, and the registers that are neither slots nor the machine's pointers, change
/// no answer and no new content. Where a refusal comes before the slots are read, no byte of the image and
/// no register but the pointers changes it.
fn complemented(rng: &mut Rng, counts: &mut Counts) {
    let (scene, section, number) = frame(rng);
    let (listed, read) = what_counts(&scene, number);
    let other_registers = |registers: &[u64]| -> Vec<u64> {
        let registers = registers.iter().enumerate();
        registers
            .map(|(nth, own)| if read.contains(&nth) { *own } else { !own })
            .collect()
    };
    let complement = |image: &[u8]| -> Vec<u8> {
        let bytes = image.iter().zip(&listed);
        bytes
            .map(|(byte, listed)| if *listed { *byte } else { !byte })
            .collect()
    };
    let outcome = Call::of(&scene, &section, 0).compare();
    let (image, plainly) = (complement(&scene.image), Call::of(&scene, &section, 0));
    let call = Call {
        image: &image,
        registers: other_registers(&plainly.registers),
        ..plainly
    };
    let mut other = call.compare();
    other.image = complement(&other.image);
    other.registers = other_registers(&other.registers);
    if outcome != other {
        call.fail(&format!(
            "{other:?} back again, and with other bytes outside the slots {outcome:?}"
        ));
    }
    counts[outcome.number as usize] += 1;
}

/// Runs random frames. The refusals of a frame itself must occur.
fn random(what: &str, run: fn(&mut Rng, &mut Counts)) {
    let counts = count_random(what, PARTS, FRAMES_A_PART, run);
    say(&format!("{what}, answers 0 to 33: {counts:?}"));
    for number in NUMBERS {
        let name = |_| format!("answers of number {number}");
        crate::common::assert_often(&[counts[number as usize]], name);
    }
}

#[test]
fn pairs_in_another_order() {
    random("pairs in another order", permuted);
}

#[test]
fn bytes_and_registers_outside_the_slots() {
    random("bytes and registers outside the slots", complemented);
}
