//! Why a slot moves or does not, by the proved library and by the second implementation, in sections of both
//! versions: random slots of random frames, whole and with faults of every number, and every slot of small
//! frames.
//!
//! The library is asked as C asks it and as Rust does. Of a frame without fault, and of one with a fault that was
//! aimed at, the generator knows the reason beforehand, and that is compared too. Then the library moves the
//! frame: it has to do what the reason says. The random frames follow from a seed. It is printed;
//! `TRESKIBBEN_SEED` sets it.

mod common;

#[path = "explain/asked.rs"]
mod asked;
#[path = "common/calls.rs"]
mod calls;
#[path = "common/cases.rs"]
mod cases;
#[path = "explain/shapes.rs"]
mod shapes;
#[path = "explain/whole.rs"]
mod whole;

use asked::{ask, by_c, Numbers};
use calls::{Call, Outcome};
use cases::{case, Known};
use common::{assert_often, count_random, nth_version, say};
use generator::frames::faults::NUMBERS;
use generator::frames::plain;
use generator::frames::reasons::{self, MOVED, REFUSED, UNLISTED};
use generator::frames::Scene;
use generator::{aimed, Rng, Version};
use shapes::{content, of_frame, Asked, SHAPES};
use treskibben::{Frame, Slot};

/// Frames in a run, made in parts that each have a source of random numbers, and questions on each frame.
const PARTS: u64 = 1_000;
const FRAMES_A_PART: u64 = 120;
const QUESTIONS: usize = 6;

/// How often each reason must be told, of each version.
const LEAST: u64 = 10_000;

/// How often each reason was told, of each version; how often each number of a refusal, 0 to 33, of each
/// version; and how often each shape was seen.
const REASONS: usize = 5;
const ANSWERS: usize = 34;
type Counts = [u64; 2 * (REASONS + ANSWERS) + SHAPES.len()];

/// A random frame, whole or with faults, the bytes of its section, and what is known of it.
fn frame(rng: &mut Rng) -> (Scene, Vec<u8>, Known) {
    let mut scene = match rng.below(4) {
        0 => Scene::wide(rng),
        _ => Scene::one(rng),
    };
    repeat(rng, &mut scene);
    if rng.one_in(2) {
        let section = scene.section.encode();
        return (scene, section, Some((0, 0)));
    }
    case(rng, scene)
}

/// Names the location of a pair as a deoptimisation value too, where the record has one: that alters no answer.
fn repeat(rng: &mut Rng, scene: &mut Scene) {
    let locations = &mut scene.section.records[scene.stops[0].record].locations;
    let deopt = locations[2].offset as usize;
    let pairs = locations.len() - 3 - deopt;
    if deopt > 0 && pairs > 0 && rng.one_in(3) {
        locations[3 + rng.below(deopt)] = locations[3 + deopt + rng.below(pairs)].clone();
    }
}

/// A slot to ask for. A number that is no machine has the locations of one that is.
fn slot(rng: &mut Rng, scene: &mut Scene, known: Known) -> Slot {
    if known == Some((0, 0)) && rng.one_in(3) {
        let pointers = plain::slots(scene, 0).concat();
        if !pointers.is_empty() {
            // The base, mostly: pairs share bases, and so derived slots are asked for more often.
            let pointer = pointers[rng.below(pointers.len())];
            return of_frame(scene, pointer[rng.pick(&[0, 0, 0, 1])]);
        }
    }
    let machine = scene.machine;
    scene.machine = machine.min(1);
    let asked = reasons::asked(rng, scene, 0);
    scene.machine = machine;
    match asked {
        reasons::Asked::Address(address) => Slot::Address(address),
        reasons::Asked::Register(number) => Slot::Register(number),
    }
}

/// What is known of a slot, where something is known of its frame.
fn known_reason(scene: &Scene, known: Known, slot: Slot) -> Option<Numbers> {
    let asked = match slot {
        Slot::Address(address) => reasons::Asked::Address(address),
        Slot::Register(number) => reasons::Asked::Register(number),
    };
    match known? {
        (0, _) => Some(reasons::reason(scene, 0, asked)),
        (number, place) => Some([REFUSED, number, place, 0, 0, 0]),
    }
}

/// Asks for slots of a random frame, and compares all that is known of them.
fn run(rng: &mut Rng, counts: &mut Counts) {
    let (mut scene, section, known) = frame(rng);
    let slots = [(); QUESTIONS].map(|()| slot(rng, &mut scene, known));
    let version = nth_version(scene.section.version);
    let call = Call::of(&scene, &section, 0);
    let outcome = call.compare();
    for slot in slots {
        let told = ask(&call, slot);
        let expected = known_reason(&scene, known, slot);
        if expected.is_some_and(|expected| expected != told) {
            call.fail(&format!(
                "{slot:x?}: {told:x?}, known beforehand {expected:x?}"
            ));
        }
        done(&call, &outcome, slot, told);
        counts[REASONS * version + told[0] as usize] += 1;
        counts[2 * REASONS + ANSWERS * version + told[1] as usize] += 1;
        if known == Some((0, 0)) {
            let asked = Asked::of(&scene, slot, told);
            let shapes = counts[2 * (REASONS + ANSWERS)..].iter_mut().zip(SHAPES);
            shapes.for_each(|(count, (_, shows))| *count += u64::from(shows(&asked)));
        }
    }
}

/// What the reason says, the move has done: it is refused by the same number and place, or it has left the content
/// that follows from the reason.
fn done(call: &Call<Frame>, outcome: &Outcome, slot: Slot, told: Numbers) {
    let refused = (told[0] == REFUSED, told[1], told[2]);
    if refused != (outcome.number != 0, outcome.number, outcome.place) {
        call.fail(&format!("{slot:x?}: {told:x?}, and the move {outcome:?}"));
    }
    if told[0] == REFUSED {
        return;
    }
    let before = content(call.first, call.image, &call.registers, slot);
    let after = content(call.first, &outcome.image, &outcome.registers, slot);
    let [_, _, _, _, old, new] = told;
    let right = match (told[0], before, after) {
        (MOVED, Some(before), Some(after)) => after == before.wrapping_add(new).wrapping_sub(old),
        (UNLISTED, before, after) => before == after || covered(call, slot),
        (_, Some(before), Some(after)) => before == after,
        // A slot that holds nothing is listed.
        _ => false,
    };
    if !right {
        call.fail(&format!("{slot:x?}: {told:x?}, and the move {outcome:?}"));
    }
}

/// Whether a slot that moves covers a part of these eight bytes.
fn covered(call: &Call<Frame>, slot: Slot) -> bool {
    let Slot::Address(address) = slot else {
        return false;
    };
    let around = address.saturating_sub(7)..=address.saturating_add(7);
    let mut around = around.map(|near| by_c(call, Slot::Address(near)));
    around.any(|told| told[0] == MOVED)
}

#[test]
fn random_slots() {
    let counts = count_random("random slots", PARTS, FRAMES_A_PART, run);
    let (told, rest) = counts.split_at(2 * REASONS);
    let (numbers, shapes) = rest.split_at(2 * ANSWERS);
    let versions = told.chunks(REASONS).zip(numbers.chunks(ANSWERS));
    for (version, (told, numbers)) in Version::ALL.into_iter().zip(versions) {
        let of = version.number();
        say(&format!(
            "version {of}: unlisted, only base, null base, moved, refused: {told:?}"
        ));
        say(&format!("refused by 1 to 33: {:?}", &numbers[1..]));
        for (reason, count) in told.iter().enumerate() {
            assert!(*count >= LEAST, "reason {reason} of version {of}: {count}");
        }
        let due = [&[5, 8], aimed::numbers(version), &NUMBERS].concat();
        for (number, count) in numbers.iter().enumerate().skip(1) {
            let name = |_| format!("refusals {number} of version {of}");
            match number {
                // A damaged section of version 1 can be one of version 3.
                5 | 8 if version == Version::One => {}
                _ if due.contains(&(number as u64)) => assert_often(&[*count], name),
                _ => assert_eq!(*count, 0, "{number} is no answer of a frame"),
            }
        }
    }
    say(&format!("shapes of questions: {shapes:?}"));
    assert_often(shapes, |nth| SHAPES[nth].0.to_string());
}
