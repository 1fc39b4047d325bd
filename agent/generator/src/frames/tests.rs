use super::guests::Lie;
use super::plain::Slot;
use super::*;

#[test]
fn a_seed_decides_every_scene() {
    let scenes = |seed| {
        let mut rng = Rng::new(seed);
        (0..200)
            .map(|_| Scene::one(&mut rng).image)
            .collect::<Vec<_>>()
    };
    assert_eq!(scenes(1), scenes(1));
    assert_ne!(scenes(1), scenes(2));
}

#[test]
fn extents_are_inside_and_share_no_byte() {
    let mut rng = Rng::new(1);
    for _ in 0..2_000 {
        let count = rng.below(6);
        let scene = Scene::many(&mut rng, count);
        let mut end = 0;
        for stop in 0..count {
            assert!(scene.start(stop) >= end);
            end = scene.start(stop) + i128::from(scene.stack_size(stop));
            assert_eq!(plain::answer(&scene, stop), (0, 0));
        }
        assert!(end <= scene.image.len() as i128);
    }
}

#[test]
fn tables_have_as_many_entries_as_asked_for() {
    let mut rng = Rng::new(1);
    for count in [0, 1, 2, 1_000, MOST_MOVES] {
        let table = Table::of(&mut rng, count);
        assert_eq!((table.olds.len(), table.news.len()), (count, count));
        assert!(table.olds.is_sorted_by(|one, next| one < next));
        assert!(!table.olds.contains(&0) && !table.news.contains(&0));
    }
}

/// A guest lies as it is asked to, and is accepted by itself; the frames before it are as they were.
#[test]
fn guests_lie_as_asked_and_are_accepted() {
    let mut rng = Rng::new(1);
    let mut added = [0; Lie::ALL.len()];
    for _ in 0..4_000 {
        let mut scene = Scene::many(&mut rng, 3);
        let (nth, host) = (rng.below(Lie::ALL.len()), rng.below(3));
        let Some(guest) = guests::add(&mut rng, &mut scene, Lie::ALL[nth], host) else {
            continue;
        };
        added[nth] += 1;
        for stop in 0..scene.stops.len() {
            assert_eq!(plain::refusal(&scene, stop), (0, 0));
        }
        let extent = |stop| {
            let start = scene.start(stop);
            start..start + i128::from(scene.stack_size(stop))
        };
        let shares = extent(guest).any(|byte| extent(host).contains(&byte));
        assert_eq!(shares, Lie::ALL[nth].shares(), "{:?}", Lie::ALL[nth]);
        let touch =
            extent(guest).end == extent(host).start || extent(guest).start == extent(host).end;
        let touches = matches!(Lie::ALL[nth], Lie::TouchesFirst | Lie::TouchesLast);
        assert!(touch || !touches);
    }
    assert!(added.iter().all(|count| *count > 100), "{added:?}");
}

/// Frames of version 1 name functions that are there, and often not in the order of their records;
/// those of version 3 name any.
#[test]
fn frames_name_functions_as_their_version_has_it() {
    let mut rng = Rng::new(1);
    let (mut unordered, mut absent) = (0, 0);
    for _ in 0..4_000 {
        let scene = Scene::many(&mut rng, 2);
        let functions = scene.section.functions.len() as u64;
        let there = scene.stops.iter().all(|stop| stop.named < functions);
        let [one, two] = [scene.stops[0], scene.stops[1]];
        match scene.section.version {
            Version::One => {
                assert!(there);
                let own = scene
                    .stops
                    .iter()
                    .all(|stop| stop.named == stop.function as u64);
                assert!(own);
                unordered += u32::from((one.record < two.record) != (one.function < two.function));
            }
            Version::Three => absent += u32::from(!there),
        }
    }
    assert!(unordered > 500 && absent > 500, "{unordered} {absent}");
}

/// Where a fault is aimed at, the plain answer is that fault.
#[test]
fn plain_answers_are_those_aimed_at() {
    let mut rng = Rng::new(1);
    let mut hit = 0;
    for _ in 0..40_000 {
        let mut scene = Scene::one(&mut rng);
        assert_eq!(plain::refusal(&scene, 0), (0, 0));
        let number = rng.pick(&faults::ALONE);
        if let Some(place) = faults::aim(&mut rng, number, &mut scene, 0) {
            assert_eq!(plain::refusal(&scene, 0), (number, place));
            hit += 1;
        }
    }
    assert!(hit > 20_000, "{hit}");
}

/// Scenes are of both machines. On the other machine, with its registers, each is accepted as before; with
/// its own it is refused by 18 at the first pair that has a slot on the stack, or in a register that is
/// none there.
#[test]
fn frames_are_of_both_machines() {
    let mut rng = Rng::new(1);
    let (mut of, mut refused, mut twins) = ([0; 2], 0, 0);
    for _ in 0..4_000 {
        let mut scene = Scene::one(&mut rng);
        of[scene.machine as usize] += 1;
        match scene.on_other_machine() {
            Some(other) => {
                assert_eq!(other.machine, 1 - scene.machine);
                assert_eq!(plain::refusal(&other, 0), (0, 0));
                assert_eq!(plain::moved(&other, [0]), plain::moved(&scene, [0]));
                twins += 1;
            }
            None => assert_eq!(scene.machine, 1),
        }
        let slots = plain::slots(&scene, 0);
        let there = slot_registers(1 - scene.machine);
        let is_slot = |number: usize| there.contains(&(number as u16));
        let lost = |slot: &Slot| !slot.in_register().is_some_and(is_slot);
        let pair = slots
            .iter()
            .position(|pair| pair.iter().flatten().any(lost));
        faults::other_machine(&mut scene);
        if let Some(pair) = pair {
            assert_eq!(plain::refusal(&scene, 0), (18, pair as u64));
            refused += 1;
        }
    }
    assert!(of[0] > 1_000 && of[1] > 1_000, "{of:?}");
    assert!(refused > 1_000 && twins > 3_000, "{refused} {twins}");
}
