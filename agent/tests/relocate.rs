//! The move of one frame by the proved library and by the second implementation, in sections of both
//! versions: random frames, frames with faults of every number, frames at the limits, and lists of
//! moves.
//!
//! Answers, whole images and all registers are compared, also where a frame is refused. Of a frame without
//! fault, and of one with a fault that was aimed at, the generator knows them beforehand, and that is
//! compared too. The random frames follow from a seed. It is printed; `TRESKIBBEN_SEED` sets it.

mod common;

#[path = "common/calls.rs"]
mod calls;
#[path = "common/cases.rs"]
mod cases;
#[path = "relocate/limits.rs"]
mod limits;
#[path = "relocate/lists.rs"]
mod lists;
#[path = "relocate/machines.rs"]
mod machines;
#[path = "relocate/orders.rs"]
mod orders;
#[path = "relocate/pointers.rs"]
mod pointers;
#[path = "relocate/register_shapes.rs"]
mod register_shapes;
#[path = "relocate/registers.rs"]
mod registers;
#[path = "relocate/shapes.rs"]
mod shapes;
#[path = "relocate/wide.rs"]
mod wide;
#[path = "relocate/worked.rs"]
mod worked;

use calls::{Call, Outcome};
use cases::{case, make, Known};
use common::{count_random, nth_version, say};
use generator::frames::faults::NUMBERS;
use generator::frames::plain::{self, Slot};
use generator::frames::Scene;
use generator::{aimed, Rng, Version};
use shapes::SHAPES;
use treskibben::Frame;

/// Frames in a run, made in parts that each have a source of random numbers.
const PARTS: u64 = 1_000;
const FRAMES_A_PART: u64 = 400;

/// How often each number was the answer, 0 to 33, for each version that sections were made of; and then
/// how often each shape was seen.
const ANSWERS: usize = 34;
type Counts = [u64; 2 * ANSWERS + SHAPES.len()];

/// Moves a random frame, and compares all that is known of it.
fn run(rng: &mut Rng, counts: &mut Counts) {
    let scene = Scene::one(rng);
    let (scene, section, known) = case(rng, scene);
    let number = compare(&scene, &section, known);
    let version = nth_version(scene.section.version);
    counts[ANSWERS * version + number as usize] += 1;
    if known.is_some() {
        for (count, (_, shows)) in counts[2 * ANSWERS..].iter_mut().zip(SHAPES) {
            *count += u64::from(shows(&scene, number));
        }
    }
}

/// Moves the only frame of a scene, whose section has these bytes, compares all that is known of it, and
/// gives the number.
fn compare(scene: &Scene, section: &[u8], known: Known) -> u64 {
    let call = Call::of(scene, section, 0);
    let outcome = call.compare();
    if let Some((number, place)) = known {
        if (outcome.number, outcome.place) != (number, place) {
            call.fail(&format!(
                "{outcome:?}, known beforehand {number} at {place}"
            ));
        }
        if number == 0 {
            accepted(scene, &call, &outcome);
        }
    }
    outcome.number
}

/// What holds of an accepted frame: the count, the image, the registers, and how far each pointer is from
/// its base where the base is moved too.
fn accepted(scene: &Scene, call: &Call<Frame>, outcome: &Outcome) {
    let slots = plain::slots(scene, 0).concat();
    let count = plain::pointers(scene, 0) as u64;
    let registers = plain::moved_registers(scene, 0);
    let lent = outcome.image == plain::moved(scene, [0]) && outcome.registers == registers;
    if outcome.count != count || !lent {
        call.fail(&format!(
            "{outcome:?}, which is not what was worked out beforehand"
        ));
    }
    let mut after = Scene {
        image: outcome.image.clone(),
        ..scene.clone()
    };
    after.stops[0].registers = registers;
    let distance = |scene: &Scene, [base, derived]: [Slot; 2]| {
        let base = plain::content(scene, 0, base);
        plain::content(scene, 0, derived).wrapping_sub(base)
    };
    for pointer in slots.iter().copied() {
        let itself = slots.contains(&[pointer[0]; 2]);
        if itself && distance(scene, pointer) != distance(&after, pointer) {
            call.fail(&format!(
                "{outcome:?}, and the pointer {pointer:?} is elsewhere in its object"
            ));
        }
    }
}

#[test]
fn random_frames() {
    let counts = count_random("random frames", PARTS, FRAMES_A_PART, run);
    let (numbers, shapes) = counts.split_at(2 * ANSWERS);
    for (version, numbers) in Version::ALL.into_iter().zip(numbers.chunks(ANSWERS)) {
        let (frames, of) = (numbers.iter().sum::<u64>(), version.number());
        say(&format!(
            "{frames} frames of version {of}, {} accepted",
            numbers[0]
        ));
        say(&format!("refused by 1 to 33: {:?}", &numbers[1..]));
        let due = [&[0, 5, 8], aimed::numbers(version), &NUMBERS].concat();
        for (number, count) in numbers.iter().enumerate() {
            let name = |_| format!("answers {number} of version {of}");
            match number {
                // A damaged section of version 1 can be one of version 3.
                5 | 8 if version == Version::One => {}
                _ if due.contains(&(number as u64)) => common::assert_often(&[*count], name),
                _ => assert_eq!(*count, 0, "{number} is no answer of a frame"),
            }
        }
    }
    say(&format!("shapes: {shapes:?}"));
    common::assert_often(shapes, |nth| SHAPES[nth].0.to_string());
}
