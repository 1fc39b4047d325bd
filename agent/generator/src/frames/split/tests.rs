//! What is known of split stacks is what the second implementation answers, and each answer and shape occurs
//! often enough.

use super::*;
use crate::layout::Version;

/// An answer, and the buffer and the registers after it.
type Outcome = (Result<u64, (u64, u64)>, Vec<u8>, Vec<u64>);

/// The second implementation's outcome.
fn moved(thread: &Thread, split: &Split) -> Outcome {
    let scene = &thread.scene;
    let (mut buffer, mut registers) = (split.buffer(&scene.image), thread.registers());
    let answer = reference::split::thread(
        &scene.section.encode(),
        &mut buffer,
        &split.list(),
        &scene.table.olds,
        &scene.table.news,
        scene.machine,
        &thread.list(),
        &mut registers,
    );
    let answer = answer.map_err(|refusal| (refusal.number, refusal.place));
    (answer, buffer, registers)
}

/// Compares with what is known. Gives the number.
fn compare(thread: &Thread, split: &Split) -> Option<u64> {
    let (answer, buffer, registers) = moved(thread, split);
    let known = split.answer(thread)?;
    match known {
        (0, _) => {
            assert_eq!(answer, Ok(thread.pointers()));
            assert_eq!(buffer, split.buffer(&thread.moved()));
            assert_eq!(registers, thread.moved_registers());
        }
        refused => {
            assert_eq!(answer, Err(refused), "{split:?}");
            assert_eq!(buffer, split.buffer(&thread.scene.image));
            assert_eq!(registers, thread.registers());
        }
    }
    Some(known.0)
}

/// A shape of pieces that has to occur, with which answer.
type Shape = (&'static str, fn(&Thread, &Split, u64) -> bool);

const SHAPES: [Shape; 7] = [
    ("several pieces, accepted", |_, split, number| {
        number == 0 && split.count() > 1
    }),
    ("pieces in another order, accepted", |_, split, number| {
        let filled = split.pieces.iter().filter(|own| own.length() > 0);
        let firsts: Vec<u64> = filled.map(|own| own.first).collect();
        number == 0 && !firsts.is_sorted()
    }),
    ("frames in two pieces, accepted", |thread, split, number| {
        let homes = |stop: &usize| {
            let (from, to) = extent(&thread.scene, *stop);
            let home = |own: &Piece| from < to && own.holds(from, to);
            split.pieces.iter().position(home)
        };
        let mut homes: Vec<usize> = thread.order.iter().filter_map(homes).collect();
        homes.sort();
        homes.dedup();
        number == 0 && homes.len() > 1
    }),
    ("a frame across two pieces", |thread, split, number| {
        let across = |stop: &usize| split.is_across(&thread.scene, *stop);
        number == 16 && thread.order.iter().any(across)
    }),
    ("an empty piece, accepted", |_, split, number| {
        number == 0 && split.pieces.iter().any(|own| own.length() == 0)
    }),
    ("an empty piece inside another", |_, split, number| {
        let inside = |own: &Piece| {
            let at = i128::from(own.first);
            let within = |other: &Piece| i128::from(other.first) < at && other.holds(at, at + 1);
            own.length() == 0 && split.pieces.iter().any(within)
        };
        number == 0 && split.pieces.iter().any(inside)
    }),
    ("other bytes, accepted", |_, split, number| {
        let other = |own: &Piece| matches!(own.source, Source::Other(_)) && own.length() > 0;
        number == 0 && split.pieces.iter().any(other)
    }),
];

#[test]
fn split_stacks_are_answered_as_known() {
    let mut rng = Rng::new(24);
    let (mut numbers, mut seen) = ([0; 34], [0; SHAPES.len()]);
    let (mut wrongs, mut open) = ([0; Wrong::ALL.len()], 0);
    for nth in 0..12_000 {
        let thread = Thread::any(&mut rng);
        let mut split = Split::any(&mut rng, &thread.scene);
        let way = rng.below(Wrong::ALL.len());
        // Images over their limit are large: there are few of them.
        let spoil = match Wrong::ALL[way] {
            Wrong::Large => nth % 80 == 0,
            _ => rng.one_in(12),
        };
        if spoil {
            split = split.spoil(&mut rng, &thread.scene.image, Wrong::ALL[way]);
            wrongs[way] += 1;
        }
        let Some(number) = compare(&thread, &split) else {
            open += 1;
            continue;
        };
        numbers[number as usize] += 1;
        for (count, (_, shows)) in seen.iter_mut().zip(SHAPES) {
            *count += u64::from(shows(&thread, &split, number));
        }
    }
    for number in [0, 10, 12, 13, 15, 16, 17, 18, 19, 20, 21, 25, 26] {
        assert!(numbers[number] >= 20, "{number}: {numbers:?}");
    }
    for (count, (name, _)) in seen.iter().zip(SHAPES) {
        assert!(*count >= 100, "{name}: only {count} times");
    }
    for (count, wrong) in wrongs.iter().zip(Wrong::ALL) {
        assert!(*count >= 10, "{wrong:?}: only {count} times");
    }
    assert!(open < 1_000, "{open} with no word on their answer");
}

/// With one piece the answer, the image and the registers are those of the plain call.
#[test]
fn one_piece_is_the_whole_image() {
    let mut rng = Rng::new(25);
    let mut versions = [0; 2];
    for _ in 0..2_000 {
        let thread = Thread::any(&mut rng);
        let split = Split::one(&thread.scene);
        assert_eq!(split.answer(&thread), Some(thread.answer()));
        let number = compare(&thread, &split);
        let older = thread.scene.section.version == Version::One;
        versions[usize::from(older)] += u64::from(number == Some(0));
    }
    assert!(versions.iter().all(|count| *count > 100), "{versions:?}");
}
