//! Pairs of several pointers at their limits, and what they are beside pairs of one pointer each.

use crate::calls::Call;
use crate::common::{assert_often, count_random, say, seed};
use crate::limits::{expect, frame, FEW};
use crate::make;
use generator::frames::{plain, Scene, Table};
use generator::layout::Location;
use generator::{Rng, Version};

/// A frame of version 3 with pairs of so many pointers at these offsets from RSP, and with so many words
/// of 0 on the stack. No pointers make a null pair.
fn of_pairs(pairs: &[(u16, [i32; 2])], words: usize) -> Scene {
    let offsets: Vec<[i32; 2]> = pairs.iter().map(|(_, offsets)| *offsets).collect();
    let mut scene = frame(Version::Three, &offsets, &vec![0; words]);
    let locations = scene.section.records[0].locations[3..].chunks_exact_mut(2);
    for (pair, (pointers, _)) in locations.zip(pairs) {
        for location in pair {
            location.size = 8 * pointers;
            if *pointers == 0 {
                (location.kind, location.offset) = (4, 0);
            }
        }
    }
    scene
}

const NULL: (u16, [i32; 2]) = (0, [0; 2]);

#[test]
fn sizes_at_their_limits() {
    let around = |pointers: u16| [8 * pointers - 1, 8 * pointers, 8 * pointers + 1];
    let mut sizes = vec![0, 0x8000, 0xfff8, 0xffff];
    sizes.extend(
        [1, 2, 3, 31, 32, 255, 256, 257, 512]
            .into_iter()
            .flat_map(around),
    );
    for (base, derived) in sizes
        .iter()
        .flat_map(|base| sizes.iter().map(move |derived| (*base, *derived)))
    {
        let mut scene = of_pairs(&[(1, [0, 0]), (1, [8, 16])], 300);
        let pair = &mut scene.section.records[0].locations[5..];
        (pair[0].size, pair[1].size) = (base, derived);
        let right = base == derived && base.is_multiple_of(8) && (8..=2_048).contains(&base);
        let number = match right {
            false => 18,
            true if 1 + base / 8 > 256 => 17,
            true => 0,
        };
        let outcome = expect(&scene, number);
        assert_eq!(outcome.place, u64::from(number == 18), "{base} {derived}");
    }
}

/// Every size that a location of version 1 can have, of either slot of a pair; the same pairs in
/// version 3.
#[test]
fn every_size_of_a_slot() {
    for (size, version) in (0..=255).flat_map(|size| Version::ALL.map(|version| (size, version))) {
        for (which, other) in [0, 1]
            .into_iter()
            .flat_map(|which| [(which, 0), (which, 8), (which, size)])
        {
            let mut scene = frame(version, &[[0, 8]], &[0; 33]);
            let pair = &mut scene.section.records[0].locations[3..];
            (pair[which].size, pair[1 - which].size) = (size, other);
            let fits = match version {
                Version::One => [0, 8].contains(&size) && [0, 8].contains(&other),
                Version::Three => size == other && size.is_multiple_of(8) && size > 0,
            };
            let outcome = expect(&scene, if fits { 0 } else { 18 });
            let pointers = match version {
                Version::One => 1,
                Version::Three => u64::from(size / 8),
            };
            assert_eq!(outcome.count, if fits { pointers } else { 0 });
        }
    }
}

/// 255, 256 and 257 pointers spread over pairs in several ways, with null pairs among them; and with slots
/// outside, which are looked at after the number.
#[test]
fn pointers_spread_over_pairs() {
    for total in [255, 256, 257, 258_u16] {
        for part in [1, 2, 3, 7, 16, 100, 127, 128, 129, 255, 256] {
            for nulls in [0, 1, 2, 100, 255] {
                let mut left = total.saturating_sub(nulls);
                let mut pairs = vec![NULL; usize::from(nulls.min(total))];
                while left > 0 {
                    let pointers = part.min(left);
                    let at = 8 * i32::from(256 - pointers);
                    pairs.insert(pairs.len() / 2, (pointers, [at, at]));
                    left -= pointers;
                }
                let scene = of_pairs(&pairs, 256);
                expect(&scene, if total > 256 { 17 } else { 0 });
                // One byte less of stack.
                let mut short = scene.clone();
                short.section.functions[0].stack_size -= 1;
                let slots = total > nulls;
                let number = match (total, slots) {
                    (257.., _) => 17,
                    (_, true) => 19,
                    (_, false) => 0,
                };
                expect(&short, number);
            }
        }
    }
}

/// Two pairs of four pointers, and a pair's own two stretches, so many bytes apart.
#[test]
fn stretches_at_every_distance() {
    for apart in 0..=40 {
        let whole = apart % 8 == 0 || apart >= 32;
        let number = if whole { 0 } else { 20 };
        for pair in [[0, apart], [apart, 0]] {
            let own = expect(&of_pairs(&[NULL, (4, pair)], 16), number);
            assert_eq!(own.place, u64::from(number != 0), "{apart}");
        }
        for (one, two) in [(0, apart), (apart, 0)] {
            let pairs = [(4, [one, one]), NULL, (4, [two, two])];
            let outcome = expect(&of_pairs(&pairs, 16), number);
            assert_eq!(outcome.place, if whole { 0 } else { 2 }, "{apart}");
        }
    }
}

/// A fault of one pointer or of some, wherever they are in their pair, names the pair.
#[test]
fn some_pointers_of_a_pair_are_at_fault() {
    for nth in 0..4 {
        let at = 8 * nth as i32;
        // A base of no object.
        let mut scene = of_pairs(&[NULL, (4, [0, 32]), (4, [64, 96])], 16);
        scene.image[64 + 8 * nth] = 1;
        assert_eq!(expect(&scene, 21).place, 2);
        scene.image[8 * nth] = 1;
        assert_eq!(expect(&scene, 21).place, 1);
        // A derived slot that a later pair has too, with another base.
        let mut scene = of_pairs(&[NULL, (4, [0, 96]), (1, [64, 96 + at])], 16);
        expect(&scene, 0);
        scene.image[66] = 5;
        assert_eq!(expect(&scene, 20).place, 2);
        // Slots past the end, from the nth on, and before the beginning, up to the nth; by one byte and
        // by all.
        for start in [121 - at, 128 - at, -1 - at, -8 - at] {
            let scene = of_pairs(&[NULL, (4, [0, 32]), (4, [start, start])], 16);
            assert_eq!(expect(&scene, 19).place, 2);
        }
    }
}

/// Frames in a run, in parts.
const PARTS: u64 = 200;
const FRAMES_A_PART: u64 = 200;

/// The frame with each pair of several pointers as so many pairs of one, and the pair that each of its
/// pairs was. `None` where an offset would be past its greatest.
fn apart(scene: &Scene) -> Option<(Scene, Vec<u64>)> {
    let mut single = scene.clone();
    let record = &mut single.section.records[scene.stops[0].record];
    let first = plain::first_pair(record).expect("a statepoint");
    let locations: Vec<Location> = record.locations.drain(first..).collect();
    let mut was = Vec::new();
    for (nth, pair) in locations.chunks_exact(2).enumerate() {
        let pointers = match pair[0].kind {
            3 => i32::from(pair[0].size / 8),
            _ => 1,
        };
        for pointer in 0..pointers {
            was.push(nth as u64);
            for mut location in pair.iter().cloned() {
                if location.kind == 3 {
                    let offset = (location.offset as i32).checked_add(8 * pointer)?;
                    (location.size, location.offset) = (8, offset as u32);
                }
                record.locations.push(location);
            }
        }
    }
    Some((single, was))
}

/// Several pointers in a pair are moved as pairs of one pointer each are, and refused by the same number
/// at the pair that they are of.
fn as_single_pairs(rng: &mut Rng, counts: &mut [u64; 22]) {
    let mut scene = Scene::wide(rng);
    while scene.section.version == Version::One {
        scene = Scene::wide(rng);
    }
    let faults = [17, 19, 20, 21].map(|number| if rng.one_in(4) { number } else { 0 });
    make(rng, &mut scene, &faults);
    let Some((single, was)) = apart(&scene) else {
        return;
    };
    let (section, other) = (scene.section.encode(), single.section.encode());
    let outcome = Call::of(&scene, &section, 0).compare();
    let call = Call::of(&single, &other, 0);
    let mut expected = call.compare();
    if expected.number >= 19 {
        expected.place = was[expected.place as usize];
    }
    if outcome != expected {
        call.fail(&format!(
            "{outcome:?}, as pairs of one pointer {expected:?}"
        ));
    }
    counts[outcome.number as usize] += u64::from(was.windows(2).any(|two| two[0] == two[1]));
}

#[test]
fn several_pointers_beside_as_many_pairs() {
    let counts = count_random(
        "pairs of one pointer",
        PARTS,
        FRAMES_A_PART,
        as_single_pairs,
    );
    say(&format!(
        "pairs of one pointer, answers 0 to 21: {counts:?}"
    ));
    for number in [0, 17, 19, 20, 21] {
        assert_often(&[counts[number]], |_| format!("answers {number}"));
    }
}

/// Both faults at a time: version 1 gives 17, and version 3 gives 18.
#[test]
fn refusals_17_and_18_together() {
    let mut rng = Rng::new(seed("17 and 18 together"));
    for (version, number) in [(Version::One, 17), (Version::Three, 18)] {
        for _ in 0..2_000 {
            let table = Table::any(&mut rng);
            let mut scene = Scene::of_version(&mut rng, version, table, &[FEW]);
            let (made, place) = make(&mut rng, &mut scene, &[17, 18]);
            assert_eq!(made, number);
            assert_eq!(expect(&scene, number).place, place);
        }
    }
}
