//! Frames of both machines: the same frame on each, frames of one machine on the other's section, every
//! register, and numbers that are no machine.

use crate::calls::{Call, Outcome};
use crate::common::{assert_often, count_random, say};
use crate::limits::frame;
use crate::make;
use generator::frames::faults::{other_machine, NUMBERS};
use generator::frames::{plain, Scene, MACHINES};
use generator::{aimed, Rng, Version};

const PARTS: u64 = 200;
const FRAMES_A_PART: u64 = 250;

/// How often each number was the answer, 0 to 33, on each machine; and then how often a frame of one machine
/// on the other's section was accepted, and refused.
const ANSWERS: usize = 34;
type Counts = [u64; 2 * ANSWERS + 2];

/// The move of the only frame of a scene.
fn moved(scene: &Scene) -> Outcome {
    let section = scene.section.encode();
    Call::of(scene, &section, 0).compare()
}

/// The same frame on both machines, with the machine's own registers; and on the machine that it isn't of.
fn both(rng: &mut Rng, counts: &mut Counts) {
    let mut scene = match rng.below(3) {
        0 => Scene::wide(rng),
        _ => Scene::one(rng),
    };
    let faults = [rng.pick(&NUMBERS), rng.pick(&NUMBERS)];
    let few = rng.pick(&[0, 1, 1, 1, 2]);
    let (number, _) = make(rng, &mut scene, &faults[..few]);
    if number == 33 {
        counts[33] += 1;
        assert_eq!(moved(&scene).number, 33);
        return;
    }
    let outcome = moved(&scene);
    // AMD64 has fewer registers.
    let twin = scene.on_other_machine();
    if let Some(other) = twin.as_ref().map(moved) {
        if outcome.answer() != other.answer() || outcome.image != other.image {
            let section = scene.section.encode();
            let call = Call::of(&scene, &section, 0);
            call.fail(&format!("{outcome:?}, on the other machine {other:?}"));
        }
    }
    counts[ANSWERS * scene.machine as usize + outcome.number as usize] += 1;
    if [13, 14].contains(&number) {
        return;
    }
    let mut stranger = scene.clone();
    other_machine(&mut stranger);
    let known = plain::refusal(&stranger, 0);
    let outcome = moved(&stranger);
    assert_eq!((outcome.number, outcome.place), known, "{stranger:x?}");
    counts[2 * ANSWERS] += u64::from(known.0 == 0);
    counts[2 * ANSWERS + 1] += u64::from(known.0 == 18 && number != 18);
}

#[test]
fn frames_on_both_machines() {
    let counts = count_random("frames on both machines", PARTS, FRAMES_A_PART, both);
    let (machines, strangers) = counts.split_at(2 * ANSWERS);
    for ((machine, _), numbers) in MACHINES.into_iter().zip(machines.chunks(ANSWERS)) {
        say(&format!("machine {machine}, answers 0 to 33: {numbers:?}"));
        for number in NUMBERS
            .into_iter()
            .filter(|number| *number != 33)
            .chain([0])
        {
            let name = |_| format!("answers {number} on machine {machine}");
            assert!(numbers[number as usize] >= 300, "{}", name(0));
        }
    }
    say(&format!(
        "on the other's section, accepted and 18: {strangers:?}"
    ));
    assert_often(strangers, |nth| {
        ["accepted", "refused by 18"][nth].to_string()
    });
}

/// Every register that an Indirect location can name, in each of the two locations of a pair, on both machines
/// and in both versions: slots in memory are counted from the machine's own two alone.
#[test]
fn every_register_of_memory() {
    for ((machine, own), version) in MACHINES
        .into_iter()
        .flat_map(|machine| Version::ALL.map(|version| (machine, version)))
    {
        let near = [
            0x106,
            0x107,
            0x11d,
            0x11f,
            0x600,
            0x700,
            0x1d00,
            0x1f00,
            u16::MAX,
        ];
        for register in (0..300).chain(near) {
            for which in [0, 1] {
                let mut scene = frame(version, &[[0, 0], [8, 16]], &[0x50000, 0x50000, 0x60008]);
                scene.machine = machine;
                scene.set_stack_pointer(0, 0x7000);
                scene.set_frame_pointer(0, 0x7000);
                for location in &mut scene.section.records[0].locations[3..] {
                    location.register = own[1];
                }
                scene.section.records[0].locations[5 + which].register = register;
                let outcome = moved(&scene);
                let answer = match own.contains(&register) {
                    true => (0, 0, 2),
                    false => (18, 1, 0),
                };
                assert_eq!(outcome.answer(), answer, "{register} on {machine}");
            }
        }
    }
}

/// The frame pointer is where it is said to be, and the extent begins at the stack pointer, on both machines.
#[test]
fn frame_pointer_and_stack_pointer() {
    for (machine, [of_frame, of_stack]) in MACHINES {
        for distance in -40..=40 {
            let mut scene = frame(Version::Three, &[[0, 0], [0, 16]], &[0x50000, 7, 0x50008]);
            scene.machine = machine;
            scene.set_stack_pointer(0, 0x7000);
            scene.set_frame_pointer(0, 0x7000u64.wrapping_add_signed(distance));
            let locations = &mut scene.section.records[0].locations[3..];
            for (nth, location) in locations.iter_mut().enumerate() {
                location.register = of_frame;
                location.offset = [0, 0, 0, 16u32][nth].wrapping_sub(distance as u32);
            }
            let outcome = moved(&scene);
            assert_eq!(
                (outcome.number, outcome.count),
                (0, 2),
                "{distance} on {machine}"
            );
            assert!(outcome.image == plain::moved(&scene, [0]));
            // One byte up, the last slot is outside the image; one byte down, the first is.
            for (by, number) in [(1, 16), (-1, 16)] {
                let mut scene = scene.clone();
                let stack_pointer = scene.stack_pointer(0);
                scene.set_stack_pointer(0, stack_pointer.wrapping_add_signed(by));
                assert_eq!(moved(&scene).number, number);
            }
            let locations = &mut scene.section.records[0].locations[3..];
            for (location, slot) in locations.iter_mut().zip([0, 0, 0, 16]) {
                (location.register, location.offset) = (of_stack, slot);
            }
            assert!(moved(&scene).image == outcome.image);
        }
    }
}

/// A number that is no machine, with any other fault: the section's own comes first, and else it is 33.
#[test]
fn numbers_that_are_no_machine() {
    let mut rng = Rng::new(33);
    let (mut own, mut none) = (0, 0);
    for nth in 0..6_000 {
        let mut scene = Scene::one(&mut rng);
        let faults = [rng.pick(&NUMBERS), rng.pick(&NUMBERS)];
        make(&mut rng, &mut scene, &faults[..nth % 3]);
        scene.machine = match nth % 4 {
            0 => 2,
            1 => u64::MAX,
            2 => 1 << (1 + rng.below(63)),
            _ => 2 + rng.number(62),
        };
        let mut built = scene.section.build();
        let number = rng.pick(aimed::numbers(scene.section.version));
        let mut answer = (33, 0);
        if nth % 2 == 0 {
            if let Some(place) = aimed::aim(&mut rng, number, &scene.section, &mut built) {
                answer = (number, place as u64);
            }
        }
        let outcome = Call::of(&scene, &built.bytes, 0).compare();
        assert_eq!(outcome.answer(), (answer.0, answer.1, 0));
        own += u64::from(answer.0 != 33);
        none += u64::from(answer.0 == 33);
    }
    assert_often(&[own, none], |nth| ["section's own", "33"][nth].to_string());
}
