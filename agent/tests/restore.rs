//! Restores that name an edition, by the proved library and by the second implementation: frames, threads with an
//! index and without one, and reasons of slots, in sections of both versions and under all sorts of editions.
//!
//! Stores have editions that allow the restore, that are for another machine or version or for few pointers,
//! that are unknown and that are retired; and some stores are such that no calls leave them. The library is asked
//! as C asks it, with every number for a machine, and as Rust does. Answers, images and registers are compared,
//! and with what the generator knows beforehand. The random frames follow from a seed. It is printed;
//! `TRESKIBBEN_SEED` sets it.

mod common;

#[path = "common/calls.rs"]
mod calls;
#[path = "common/cases.rs"]
mod cases;
#[path = "restore/orders.rs"]
mod orders;
#[path = "restore/slots.rs"]
mod slots;
#[path = "common/thread_cases.rs"]
mod thread_cases;
#[path = "restore/threads.rs"]
mod threads;
#[path = "common/under.rs"]
mod under;
#[path = "restore/worked.rs"]
mod worked;

use calls::{Call, Outcome};
use cases::{case, Known};
use common::{assert_often, count_random, nth_version, say};
use generator::frames::faults::NUMBERS;
use generator::frames::named::Named;
use generator::frames::{plain, Scene, MOST_POINTERS};
use generator::{aimed, Rng, Version};
use treskibben::Frame;
use under::stores::Stored;
use under::{known_under, Under};

/// Frames in a run, made in parts that each have a source of random numbers.
const PARTS: u64 = 1_000;
const FRAMES_A_PART: u64 = 400;

/// How often each number was the answer, 0 to 33, for each version that sections were made of.
const ANSWERS: usize = 34;

/// What else has to occur, for each version.
const OTHERS: [&str; 6] = [
    "17 by the edition's count",
    "a pair with more pointers than the edition's count",
    "as many pointers as the edition's count",
    "33 for the machine alone",
    "33 for the version alone",
    "an answer from a damaged store",
];

type Counts = [u64; 2 * (ANSWERS + OTHERS.len())];

/// A store for the frames of a scene, now and then one whose editions are for few pointers, or a damaged one.
fn store(rng: &mut Rng, scene: &Scene) -> (Stored, bool) {
    let mut named = Named::any(rng, scene);
    if rng.one_in(5) {
        let few = rng.pick(&[1, 1, 2, 3]);
        named
            .live
            .iter_mut()
            .for_each(|(_, own)| own.largest_count = few);
    }
    match rng.one_in(8) {
        true => (Stored::damaged(rng, &named), true),
        false => (Stored::of(rng, &named), false),
    }
}

/// Moves a random frame under a random edition, and compares all that is known of it.
fn run(rng: &mut Rng, counts: &mut Counts) {
    let scene = match rng.below(4) {
        0 => Scene::wide(rng),
        _ => Scene::one(rng),
    };
    let (scene, section, known) = case(rng, scene);
    let (stored, damaged) = store(rng, &scene);
    let outcome = compare(&scene, &section, &stored, known);
    let version = nth_version(scene.section.version);
    counts[ANSWERS * version + outcome.number as usize] += 1;
    if known.is_some() {
        let seen = others(&scene, &stored, known, &outcome);
        let counts = &mut counts[2 * ANSWERS + OTHERS.len() * version..];
        for (count, seen) in counts.iter_mut().zip(seen) {
            *count += u64::from(seen);
        }
        counts[OTHERS.len() - 1] += u64::from(damaged && outcome.number != 31);
    }
}

/// The call for the only frame of a scene.
fn call_of<'a>(
    scene: &'a Scene,
    section: &'a [u8],
    stored: &'a Stored,
) -> Call<'a, Under<'a, Frame>> {
    let stop = &scene.stops[0];
    let frames = Frame {
        address: stop.address,
        function: stop.named,
    };
    let frames = Under { stored, frames };
    Call::with(scene, section, frames, stop.lent())
}

/// Moves the only frame of a scene under an edition, compares all that is known of it, and gives the outcome.
fn compare(scene: &Scene, section: &[u8], stored: &Stored, known: Known) -> Outcome {
    let call = call_of(scene, section, stored);
    let outcome = call.compare();
    let answer = |most| plain::refusal_under(scene, 0, most);
    let known = known_under(stored, scene, known, answer);
    if let Some(known) = known.filter(|known| (outcome.number, outcome.place) != *known) {
        call.fail(&format!("{outcome:?}, known beforehand {known:?}"));
    }
    let plain = Call::of(scene, section, 0).by_library();
    let as_without = match outcome.number {
        31 | 33 | 17 => true,
        _ => outcome == plain,
    };
    if !as_without {
        call.fail(&format!("{outcome:?}, and without an edition {plain:?}"));
    }
    outcome
}

/// Which of the other things a frame shows, but for the last.
fn others(scene: &Scene, stored: &Stored, known: Known, outcome: &Outcome) -> [bool; 5] {
    let Some(own) = stored.settings() else {
        return [false; 5];
    };
    let most = own.largest_count as usize;
    let by_count = outcome.number == 17 && known != Some((17, 0));
    let wide = |pair: &Vec<[plain::Slot; 2]>| pair.len() > most;
    let version = match scene.section.version {
        Version::One => own.version_1,
        Version::Three => own.version_3,
    };
    let refused = outcome.number == 33;
    [
        by_count,
        by_count && plain::slots(scene, 0).iter().any(wide),
        outcome.number == 0 && outcome.count == own.largest_count && most < MOST_POINTERS,
        refused && version,
        refused && !version && own.machine == scene.machine,
    ]
}

#[test]
fn random_frames() {
    let counts = count_random("random frames under editions", PARTS, FRAMES_A_PART, run);
    let (numbers, others) = counts.split_at(2 * ANSWERS);
    let versions = numbers.chunks(ANSWERS).zip(others.chunks(OTHERS.len()));
    for (version, (numbers, others)) in Version::ALL.into_iter().zip(versions) {
        let (frames, of) = (numbers.iter().sum::<u64>(), version.number());
        say(&format!(
            "{frames} frames of version {of}, {} accepted",
            numbers[0]
        ));
        say(&format!("refused by 1 to 33: {:?}", &numbers[1..]));
        say(&format!("{others:?}"));
        let due = [&[0, 5, 8, 31], aimed::numbers(version), &NUMBERS].concat();
        for (number, count) in numbers.iter().enumerate() {
            let name = |_| format!("answers {number} of version {of}");
            match number {
                // A damaged section of version 1 can be one of version 3.
                5 | 8 if version == Version::One => {}
                _ if due.contains(&(number as u64)) => assert_often(&[*count], name),
                _ => assert_eq!(*count, 0, "{number} is no answer of a frame"),
            }
        }
        // A pair of version 1 is one pointer.
        let wide = |nth: &usize| *nth != 1 || version == Version::Three;
        for nth in (0..OTHERS.len()).filter(wide) {
            assert_often(&[others[nth]], |_| format!("version {of}: {}", OTHERS[nth]));
        }
    }
}
