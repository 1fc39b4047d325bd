//! Frames and threads with slots in registers: what is known of them beforehand is what the second
//! implementation answers, and every shape occurs often enough.

use super::faults::{aim, other_machine, NUMBERS};
use super::tests_shapes::{pointers, SHAPES};
use super::thread::Thread;
use super::*;
use reference::moves::{are_apart, one_by_one, plainly, Move};
use reference::{relocate, Frame, Refusal};

/// Compares what is known of the only frame with what the second implementation answers, and with the
/// image and the registers that it leaves.
fn compare(scene: &Scene, answer: (u64, u64)) {
    let (own, section) = (scene.stops[0], scene.section.encode());
    let (mut image, mut registers) = (scene.image.clone(), own.lent());
    let frame = Frame {
        address: own.address,
        function: own.named,
    };
    let moved = relocate(
        &section,
        &mut image,
        scene.first,
        &scene.table.olds,
        &scene.table.news,
        scene.machine,
        frame,
        &mut registers,
    );
    assert_eq!(
        moved.map_err(pair).err().unwrap_or((0, 0)),
        answer,
        "{scene:x?}"
    );
    if let Ok(count) = moved {
        assert_eq!(count, plain::pointers(scene, 0) as u64);
        assert!(image == plain::moved(scene, [0]));
        assert_eq!(registers, plain::moved_registers(scene, 0));
    } else {
        assert!(image == scene.image && registers == own.lent());
    }
}

fn pair(refusal: Refusal) -> (u64, u64) {
    (refusal.number, refusal.place)
}

/// The faults of a frame in an order in which the one that is made last is given.
fn last_first(version: Version) -> [u64; 13] {
    let [one, two] = match version {
        Version::One => [18, 17],
        Version::Three => [17, 18],
    };
    [21, 20, 19, one, two, 16, 12, 15, 10, 25, 14, 13, 33]
}

/// A random frame, whole, with up to three faults, or on the machine that it isn't of, and its answer.
fn frame(rng: &mut Rng) -> (Scene, (u64, u64)) {
    let mut scene = match rng.below(4) {
        0 => Scene::wide(rng),
        _ => Scene::one(rng),
    };
    if rng.one_in(12) {
        other_machine(&mut scene);
        let answer = plain::refusal(&scene, 0);
        return (scene, answer);
    }
    let count = rng.pick(&[0, 1, 1, 1, 2, 3]);
    let numbers: Vec<u64> = (0..count).map(|_| rng.pick(&NUMBERS)).collect();
    let mut answer = (0, 0);
    for number in last_first(scene.section.version) {
        if numbers.contains(&number) {
            let place = aim(rng, number, &mut scene, 0);
            answer = place.map_or(answer, |place| (number, place));
        }
    }
    (scene, answer)
}

/// What is known of a frame is what the second implementation answers; each number, each shape, each
/// register on each machine and each length of a list occurs often.
#[test]
fn frames_are_answered_as_known() {
    let mut rng = Rng::new(7);
    let (mut numbers, mut shapes) = ([0; 34], [0; SHAPES.len()]);
    let (mut used, mut listed) = ([[[0; 2]; 32]; 2], [0; 4]);
    for _ in 0..80_000 {
        let (scene, answer) = frame(&mut rng);
        compare(&scene, answer);
        numbers[answer.0 as usize] += 1;
        if ![13, 14, 33].contains(&answer.0) {
            for (count, (_, shows)) in shapes.iter_mut().zip(SHAPES) {
                *count += u32::from(shows(&scene, answer));
            }
        }
        for pointer in pointers(&scene, answer) {
            for (which, slot) in pointer.into_iter().enumerate() {
                if let Some(number) = slot.in_register() {
                    used[scene.machine as usize][number][which] += 1;
                }
            }
        }
        let lengths = [0, 31, 32, 33];
        if let Some(nth) = lengths.iter().position(|one| *one == scene.stops[0].listed) {
            listed[nth] += 1;
        }
    }
    for number in NUMBERS.into_iter().chain([0]) {
        let count = numbers[number as usize];
        assert!(count > 1_000, "{number}: {count} times");
    }
    for (count, (name, _)) in shapes.iter().zip(SHAPES) {
        assert!(*count > 50, "{name}: {count} times");
    }
    for (machine, _) in MACHINES {
        for (number, count) in used[machine as usize].iter().enumerate() {
            let slot = slot_registers(machine).contains(&(number as u16));
            match slot {
                true => assert!(count.iter().all(|which| *which > 100), "{number}"),
                false => assert_eq!(*count, [0; 2], "{number}"),
            }
        }
    }
    assert!(listed.iter().all(|count| *count > 500), "{listed:?}");
}

/// What is known of a thread is what the second implementation answers, and both lists come out as known.
#[test]
fn threads_are_answered_as_known() {
    let mut rng = Rng::new(8);
    let mut numbers = [0; 27];
    let (mut odd, mut more, mut fewer, mut moved) = (0, 0, 0, 0);
    for _ in 0..12_000 {
        let thread = Thread::any(&mut rng);
        let (scene, section) = (&thread.scene, thread.scene.section.encode());
        let (list, before) = (thread.list(), thread.registers());
        let (mut image, mut registers) = (scene.image.clone(), before.clone());
        let answer = reference::thread(
            &section,
            &mut image,
            scene.first,
            &scene.table.olds,
            &scene.table.news,
            scene.machine,
            &list,
            &mut registers,
        );
        let known = thread.answer();
        assert_eq!(answer.map_err(pair).err().unwrap_or((0, 0)), known);
        numbers[known.0 as usize] += 1;
        if known.0 == 0 {
            assert_eq!(answer, Ok(thread.pointers()));
            assert!(image == thread.moved() && registers == thread.moved_registers());
            moved += u32::from(registers != before);
        } else {
            assert!(image == scene.image && registers == before);
        }
        let frames = list.len() / 2;
        if known.0 == 25 {
            odd += u32::from(list.len() % 2 == 1);
            more += u32::from(registers.len() > 32 * frames);
            fewer += u32::from(registers.len() < 32 * frames);
        }
    }
    for number in [0, 10, 12, 15, 16, 17, 18, 19, 20, 21, 25, 26] {
        let count = numbers[number];
        assert!(count > 60, "{number}: {count} times");
    }
    let lengths = [odd, more, fewer];
    assert!(lengths.iter().all(|count| *count > 60), "{lengths:?}");
    assert!(moved > 500, "{moved}");
}

/// Lists of moves whose extents share no byte, in any order: each is answered as it is plainly, and image
/// and registers are those worked out from the starting ones.
#[test]
fn lists_of_moves_are_answered_as_known() {
    let mut rng = Rng::new(9);
    let (mut lists, mut refused, mut short) = (0, 0, 0);
    for _ in 0..3_000 {
        let count = rng.below(6);
        let mut scene = Scene::many(&mut rng, count);
        faults::scatter_of(&mut rng, &mut scene, 4, &faults::ALONE);
        let mut order: Vec<usize> = (0..count).collect();
        shuffle(&mut rng, &mut order);
        let moves: Vec<Move> = order.iter().map(|stop| one(&scene, *stop)).collect();
        let section = scene.section.encode();
        if !are_apart(&section, &moves) {
            continue;
        }
        let (olds, news) = (&scene.table.olds, &scene.table.news);
        let outcome = one_by_one(&section, &scene.image, scene.first, olds, news, &moves);
        let plain = plainly(&section, &scene.image, scene.first, olds, news, &moves);
        assert_eq!(outcome, plain, "{order:?} of {scene:x?}");
        let known = order.iter().map(|stop| plain::refusal(&scene, *stop));
        let known: Vec<(u64, u64)> = known.collect();
        let answers = outcome.answers.iter().map(|one| one.map_err(pair));
        assert!(answers
            .map(|one| one.err().unwrap_or((0, 0)))
            .eq(known.iter().copied()));
        let accepted = (0..count).filter(|stop| plain::refusal(&scene, *stop).0 == 0);
        assert!(outcome.image == plain::moved(&scene, accepted));
        for (nth, (stop, (number, _))) in order.iter().zip(&known).enumerate() {
            match number {
                0 => assert_eq!(
                    outcome.registers[nth],
                    plain::moved_registers(&scene, *stop)
                ),
                _ => assert_eq!(outcome.registers[nth], scene.stops[*stop].lent()),
            }
        }
        lists += 1;
        refused += u32::from(known.iter().any(|(number, _)| *number != 0));
        short += u32::from(known.iter().any(|(number, _)| *number == 25));
    }
    assert!(
        lists > 2_000 && refused > 500 && short > 100,
        "{lists} {refused} {short}"
    );
}

/// The move of a frame of the scene.
fn one(scene: &Scene, stop: usize) -> Move {
    let own = scene.stops[stop];
    Move {
        machine: scene.machine,
        frame: Frame {
            address: own.address,
            function: own.named,
        },
        registers: own.lent(),
    }
}
