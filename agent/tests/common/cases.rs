//! Frames for the tests against the second implementation: a scene of one frame is left whole, gets faults, or
//! is damaged anywhere.

use generator::frames::faults::{aim, other_machine, NUMBERS};
use generator::frames::plain;
use generator::frames::Scene;
use generator::{aimed, damage, section_in, Rng, Version};

/// The faults of a frame, those first that the library looks for last: of several, the one that was
/// made last is given. 17 is looked for after 18 in version 3, and before it in version 1.
fn last_first(version: Version) -> [u64; 13] {
    let [one, two] = match version {
        Version::One => [18, 17],
        Version::Three => [17, 18],
    };
    [21, 20, 19, one, two, 16, 12, 15, 10, 25, 14, 13, 33]
}

/// What is known of a frame beforehand: number and place, or that it is accepted.
pub type Known = Option<(u64, u64)>;

/// Makes these faults, and gives the answer of the frame.
pub fn make(rng: &mut Rng, scene: &mut Scene, numbers: &[u64]) -> (u64, u64) {
    let mut answer = (0, 0);
    for number in last_first(scene.section.version) {
        if numbers.contains(&number) {
            if let Some(place) = aim(rng, number, scene, 0) {
                answer = (number, place);
            }
        }
    }
    answer
}

/// The frame of a scene, whole or with faults, the bytes of its section, and what is known of it.
pub fn case(rng: &mut Rng, mut scene: Scene) -> (Scene, Vec<u8>, Known) {
    let mut known = Some((0, 0));
    let mut section_number = None;
    match rng.below(17) {
        0..=3 => {}
        16 => {
            other_machine(&mut scene);
            known = Some(plain::refusal(&scene, 0));
        }
        4..=9 => {
            let number = rng.pick(&NUMBERS);
            known = Some(make(rng, &mut scene, &[number]));
        }
        10 | 11 => {
            let numbers = [(); 3].map(|()| rng.pick(&NUMBERS));
            known = Some(make(rng, &mut scene, &numbers));
        }
        12 | 13 => {
            section_number = Some(rng.pick(aimed::numbers(scene.section.version)));
        }
        _ => known = None,
    }
    let mut built = scene.section.build();
    if let Some(number) = section_number {
        if rng.one_in(2) {
            let number = rng.pick(&NUMBERS);
            known = Some(make(rng, &mut scene, &[number]));
            built = scene.section.build();
        }
        if let Some(place) = aimed::aim(rng, number, &scene.section, &mut built) {
            known = Some((number, place as u64));
        }
    }
    if known.is_none() {
        disturb(rng, &mut scene);
        if rng.one_in(2) {
            let version = rng.pick(&Version::ALL);
            let other = section_in(rng, version).encode();
            damage::damage(rng, &mut built, &other);
        }
    }
    (scene, built.bytes, known)
}

/// Changes anything but the section, with no word on what that does.
fn disturb(rng: &mut Rng, scene: &mut Scene) {
    let near =
        |rng: &mut Rng, number: u64| number.wrapping_add(rng.below(33) as u64).wrapping_sub(16);
    match rng.below(11) {
        8 => scene.machine = rng.pick(&[0, 1, 2]),
        9 => scene.stops[0].listed = near(rng, 32) as usize,
        10 => {
            let register = &mut scene.stops[0].registers[rng.below(32)];
            *register = near(rng, *register);
        }
        6 => scene.stops[0].named = near(rng, scene.stops[0].named),
        7 => scene.stops[0].address = near(rng, scene.stops[0].address),
        0 => {
            let content = near(rng, scene.stack_pointer(0));
            scene.set_stack_pointer(0, content);
        }
        1 => {
            let content = near(rng, scene.frame_pointer(0));
            scene.set_frame_pointer(0, content);
        }
        2 => scene.first = near(rng, scene.first),
        3 => drop(scene.image.pop()),
        4 => {
            let olds = &mut scene.table.olds;
            if !olds.is_empty() {
                let nth = rng.below(olds.len());
                olds[nth] = near(rng, olds[nth]);
            }
        }
        _ => {
            if !scene.image.is_empty() {
                let nth = rng.below(scene.image.len());
                scene.image[nth] = rng.byte();
            }
        }
    }
}
