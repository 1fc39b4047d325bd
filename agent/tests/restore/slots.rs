//! Reasons of slots under editions.

use crate::calls::Call;
use crate::cases::case;
use crate::common::{assert_often, count_random, say};
use crate::under::{by_edition, known_under, of_second, restore, Under};
use crate::{call_of, store};
use generator::frames::reasons::{self, Asked, REFUSED};
use generator::frames::{plain, Scene};
use generator::Rng;
use reference::explain::Slot as Second;
use treskibben::{Frame, Reason, Slot};

/// Frames in a run, made in parts that each have a source of random numbers, and questions on each frame.
const PARTS: u64 = 1_000;
const FRAMES_A_PART: u64 = 90;
const QUESTIONS: usize = 5;

/// How often each reason was told; and how often each number of a refusal, 0 to 33.
const REASONS: usize = 5;
type Counts = [u64; REASONS + 34];

/// A reason as numbers: its own, number and place of a refusal, and pair, old base and new base.
type Numbers = [u64; 6];

/// What Rust is answered; nothing for a machine that is none or a store that is damaged.
fn by_rust(call: &Call<Under<Frame>>, slot: Slot) -> Option<Numbers> {
    let Under { stored, frames } = call.frames;
    let (edition, machine) = (stored.rust()?, call.machine()?);
    let (section, image, first, table) = (call.section, call.image, call.first, call.table());
    let registers = &call.registers;
    let told = edition.explain(
        section, image, first, table, machine, frames, registers, slot,
    );
    Some(match told {
        Ok(Reason::Unlisted) => [0; 6],
        Ok(Reason::OnlyBase) => [1, 0, 0, 0, 0, 0],
        Ok(Reason::NullBase) => [2, 0, 0, 0, 0, 0],
        Ok(Reason::Moved {
            pair,
            old_base,
            new_base,
        }) => [3, 0, 0, pair, old_base, new_base],
        Err(refusal) => [4, refusal.number(), refusal.place(), 0, 0, 0],
    })
}

/// Asks C, Rust and the second implementation, and gives what they agree on.
fn ask(call: &Call<Under<Frame>>, slot: Slot) -> Numbers {
    let Under { stored, frames } = call.frames;
    let c = by_edition::explain(stored, call, frames, slot);
    let asked = match slot {
        Slot::Address(address) => Second::Address(address),
        Slot::Register(number) => Second::Register(number),
    };
    let (frame, registers) = (of_second(frames), &call.registers);
    let told = restore(call).explain(call.image, call.machine, frame, registers, asked);
    let (rust, second) = (by_rust(call, slot), told.numbers());
    if c != second || rust.is_some_and(|rust| rust != c) {
        call.fail(&format!(
            "{slot:x?}: in C {c:x?}, in Rust {rust:x?}, by the second implementation {second:x?}"
        ));
    }
    c
}

/// A slot to ask for. A number that is no machine has the locations of one that is.
fn asked(rng: &mut Rng, scene: &Scene) -> Asked {
    let machine = scene.machine.min(1);
    let scene = &Scene {
        machine,
        ..scene.clone()
    };
    reasons::asked(rng, scene, 0)
}

/// Asks for slots of a random frame under a random edition, and compares all that is known of them.
fn run(rng: &mut Rng, counts: &mut Counts) {
    let scene = Scene::one(rng);
    let (scene, section, known) = match rng.below(2) {
        0 => case(rng, scene),
        _ => {
            let section = scene.section.encode();
            (scene, section, Some((0, 0)))
        }
    };
    let (stored, _) = store(rng, &scene);
    let call = call_of(&scene, &section, &stored);
    let answer = |most| plain::refusal_under(&scene, 0, most);
    let known = known_under(&stored, &scene, known, answer);
    let outcome = call.by_library();
    for _ in 0..QUESTIONS {
        let asked = asked(rng, &scene);
        let slot = match asked {
            Asked::Address(address) => Slot::Address(address),
            Asked::Register(number) => Slot::Register(number),
        };
        let told = ask(&call, slot);
        let expected = known.map(|known| match known {
            (0, _) => reasons::reason(&scene, 0, asked),
            (number, place) => [REFUSED, number, place, 0, 0, 0],
        });
        if expected.is_some_and(|expected| expected != told) {
            call.fail(&format!(
                "{slot:x?}: {told:x?}, known beforehand {expected:x?}"
            ));
        }
        // It is refused exactly as the move is.
        if (told[1], told[2]) != (outcome.number, outcome.place) {
            call.fail(&format!("{slot:x?}: {told:x?}, and the move {outcome:?}"));
        }
        counts[told[0] as usize] += 1;
        counts[REASONS + told[1] as usize] += 1;
    }
}

#[test]
fn random_slots() {
    let counts = count_random("random slots under editions", PARTS, FRAMES_A_PART, run);
    let (told, numbers) = counts.split_at(REASONS);
    say(&format!(
        "unlisted, only base, null base, moved, refused: {told:?}"
    ));
    say(&format!("refused by 1 to 33: {:?}", &numbers[1..]));
    assert_often(told, |nth| format!("reason {nth}"));
    for number in [31, 33, 13, 14, 25, 10, 15, 12, 16, 17, 18, 19, 20, 21] {
        let name = |_| format!("refusals {number}");
        assert_often(&[numbers[number]], name);
    }
}
