//! Threads for the tests of restores by edition: lists that are whole, and ones with faults in frames, in what
//! all frames share, and in the section.

use generator::frames::faults::{aim, other_machine};
use generator::frames::thread::Thread;
use generator::{aimed, damage, section_in, Rng, Version};

/// A random list, the bytes of its section, and what is known of what its frames share: number and place, or that
/// nothing of it is refused.
pub fn case(rng: &mut Rng) -> (Thread, Vec<u8>, Option<(u64, u64)>) {
    let mut thread = Thread::any(rng);
    if rng.one_in(16) {
        other_machine(&mut thread.scene);
    }
    let mut known = Some((0, 0));
    for number in [14, 13, 33] {
        if rng.one_in(24) && aim(rng, number, &mut thread.scene, 0).is_some() {
            known = Some((number, 0));
        }
    }
    let mut built = thread.scene.section.build();
    match rng.below(8) {
        0 => {
            let number = rng.pick(aimed::numbers(thread.scene.section.version));
            let place = aimed::aim(rng, number, &thread.scene.section, &mut built);
            known = place.map_or(known, |place| Some((number, place as u64)));
        }
        1 => {
            let version = rng.pick(&Version::ALL);
            let other = section_in(rng, version).encode();
            damage::damage(rng, &mut built, &other);
            known = None;
        }
        _ => {}
    }
    (thread, built.bytes, known)
}
