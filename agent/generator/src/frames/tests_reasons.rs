//! The reasons of slots: what is known of them is what the second implementation answers, and each occurs
//! often enough.

use super::faults::{aim, ALONE};
use super::reasons::{asked, reason, Asked};
use super::*;
use reference::explain::{explain, explain_frame, Reason, Slot};
use reference::{Frame, Refusal};

/// A slot as the second implementation has it.
fn slot(asked: Asked) -> Slot {
    match asked {
        Asked::Address(address) => Slot::Address(address),
        Asked::Register(number) => Slot::Register(number),
    }
}

/// All that a question to the second implementation is lent, but for the slot.
struct Lent<'a> {
    scene: &'a Scene,
    section: Vec<u8>,
    frame: Frame,
    registers: Vec<u64>,
}

impl Lent<'_> {
    fn of(scene: &Scene) -> Lent<'_> {
        let own = scene.stops[0];
        Lent {
            scene,
            section: scene.section.encode(),
            frame: Frame {
                address: own.address,
                function: own.named,
            },
            registers: own.lent(),
        }
    }

    fn reason(&self, slot: Slot) -> Reason {
        let Lent { scene, section, .. } = self;
        let (olds, news) = (&scene.table.olds, &scene.table.news);
        let (image, first, machine) = (&scene.image, scene.first, scene.machine);
        let registers = &self.registers;
        explain(
            section, image, first, olds, news, machine, self.frame, registers, slot,
        )
    }

    /// The reasons of the whole frame are a pointer each, and those of its first slots one by one.
    fn whole(&self) -> Result<(), Refusal> {
        let Lent { scene, section, .. } = self;
        let (olds, news) = (&scene.table.olds, &scene.table.news);
        let (image, first, machine) = (&scene.image, scene.first, scene.machine);
        let registers = &self.registers;
        let all = explain_frame(
            section, image, first, olds, news, machine, self.frame, registers,
        )?;
        assert_eq!(all.len(), plain::pointers(scene, 0));
        for own in all.iter().filter_map(|one| one.slots).flatten().take(6) {
            assert_eq!(own.reason, self.reason(own.slot));
        }
        Ok(())
    }
}

#[test]
fn reasons_are_given_as_known() {
    let mut rng = Rng::new(14);
    let (mut reasons, mut numbers, mut registers) = ([0; 5], [0; 26], [0; 5]);
    for _ in 0..8_000 {
        let mut scene = match rng.below(4) {
            0 => Scene::wide(&mut rng),
            _ => Scene::one(&mut rng),
        };
        if rng.one_in(4) {
            let number = rng.pick(&ALONE);
            aim(&mut rng, number, &mut scene, 0);
        }
        let lent = Lent::of(&scene);
        for _ in 0..4 {
            let asked = asked(&mut rng, &scene, 0);
            let known = reason(&scene, 0, asked);
            assert_eq!(
                lent.reason(slot(asked)).numbers(),
                known,
                "{asked:x?} {scene:x?}"
            );
            reasons[known[0] as usize] += 1;
            numbers[known[1] as usize] += 1;
            let register = matches!(asked, Asked::Register(_));
            registers[known[0] as usize] += u32::from(register);
        }
        let (number, place) = plain::refusal(&scene, 0);
        let refusal = (number != 0).then_some(Refusal { number, place });
        assert_eq!(lent.whole().err(), refusal);
    }
    assert!(reasons.iter().all(|count| *count > 800), "{reasons:?}");
    assert!(registers.iter().all(|count| *count > 200), "{registers:?}");
    for number in ALONE {
        assert!(numbers[number as usize] > 100, "{number}: {numbers:?}");
    }
}
