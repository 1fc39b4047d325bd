//! Restores by edition and on the bench: what is known of them is what the second implementation answers,
//! and each refusal occurs often enough.

use super::bench::{self, Breach};
use super::faults::{aim, ALONE};
use super::named::Named;
use super::thread::Thread;
use super::*;
use reference::editions::{Edition, Settings, Store};
use reference::restore::Restore;
use reference::{Frame, Refusal};

/// The store of the second implementation.
fn store(named: &Named) -> Store {
    let edition = |(number, own): &(u64, crate::editions::Settings)| Edition {
        number: *number,
        settings: Settings {
            largest_count: own.largest_count,
            machine: own.machine,
            version_1: own.version_1,
            version_3: own.version_3,
        },
    };
    let live: Vec<Edition> = named.live.iter().map(edition).collect();
    Store::set_up(named.greatest, &live).expect("a store that calls can leave")
}

fn restore<'a>(store: &'a Store, edition: u64, scene: &'a Scene, section: &'a [u8]) -> Restore<'a> {
    Restore {
        store,
        edition,
        section,
        first: scene.first,
        old_starts: &scene.table.olds,
        new_starts: &scene.table.news,
    }
}

/// Number and place of an answer, 0 and 0 where it is accepted.
fn refused(answer: Result<u64, Refusal>) -> (u64, u64) {
    let pair = |refusal: Refusal| (refusal.number, refusal.place);
    answer.map_err(pair).err().unwrap_or((0, 0))
}

/// A frame of a scene as the second implementation has it.
fn frame(scene: &Scene, stop: usize) -> Frame {
    Frame {
        address: scene.stops[stop].address,
        function: scene.stops[stop].named,
    }
}

#[test]
fn restores_are_answered_as_known() {
    let mut rng = Rng::new(15);
    let (mut numbers, mut by_count) = ([0; 34], 0);
    for _ in 0..20_000 {
        let mut scene = Scene::one(&mut rng);
        let named = Named::any(&mut rng, &scene);
        if rng.one_in(3) {
            let number = rng.pick(&ALONE);
            aim(&mut rng, number, &mut scene, 0);
        }
        let (store, section) = (store(&named), scene.section.encode());
        let restore = restore(&store, named.edition, &scene, &section);
        let (mut image, mut registers) = (scene.image.clone(), scene.stops[0].lent());
        let own = frame(&scene, 0);
        let answer = restore.relocate(&mut image, scene.machine, own, &mut registers);
        let known = named.answer(&scene, 0);
        assert_eq!(refused(answer), known, "{named:?} {scene:x?}");
        numbers[known.0 as usize] += 1;
        by_count += u32::from(known.0 == 17 && plain::refusal(&scene, 0).0 != 17);
    }
    for number in ALONE.into_iter().chain([0, 31, 33]) {
        assert!(numbers[number as usize] > 150, "{number}: {numbers:?}");
    }
    assert!(by_count > 300, "{by_count}");
}

#[test]
fn threads_under_editions_are_answered_as_known() {
    let mut rng = Rng::new(16);
    let mut numbers = [0; 34];
    for _ in 0..6_000 {
        let thread = Thread::any(&mut rng);
        let scene = &thread.scene;
        let named = Named::any(&mut rng, scene);
        let (store, section) = (store(&named), scene.section.encode());
        let restore = restore(&store, named.edition, scene, &section);
        let (mut image, mut registers) = (scene.image.clone(), thread.registers());
        let list = thread.list();
        let answer = restore.thread(&mut image, scene.machine, &list, &mut registers, None);
        let known = match (named.settings(), named.allows(scene)) {
            (None, _) => (31, 0),
            (_, false) => (33, 0),
            _ => thread.answer_under(named.most()),
        };
        assert_eq!(refused(answer), known);
        numbers[known.0 as usize] += 1;
    }
    for number in [0, 17, 25, 26, 31, 33] {
        assert!(numbers[number] > 60, "{number}: {numbers:?}");
    }
}

/// Frames of the bench, whole, with one breach or two, and with a fault of their own too.
#[test]
fn the_bench_answers_as_known() {
    let mut rng = Rng::new(17);
    let (mut numbers, mut ways, mut late) = ([0; 51], [0; Breach::ALL.len()], 0);
    for _ in 0..12_000 {
        let mut scene = bench::scene(&mut rng);
        assert_eq!(bench::breach(&scene), None);
        let named = Named::any(&mut rng, &scene);
        if rng.one_in(2) {
            let number = rng.pick(&ALONE);
            aim(&mut rng, number, &mut scene, 0);
        }
        let mut way = None;
        if bench::breach(&scene).is_none() {
            for _ in 0..rng.pick(&[0, 0, 1, 2]) {
                let nth = rng.below(Breach::ALL.len());
                // After the last breach of the section or of all there is none.
                let more = scene.machine == 0 && scene.section.version == Version::Three;
                if more && find_all(&scene) {
                    bench::break_by(&mut rng, &mut scene, Breach::ALL[nth]);
                    way = Some(nth);
                }
            }
        }
        let (store, section) = (store(&named), scene.section.encode());
        let restore = restore(&store, named.edition, &scene, &section);
        let (mut image, mut registers) = (scene.image.clone(), scene.stops[0].lent());
        let (own, machine) = (frame(&scene, 0), scene.machine);
        let base = &mut image.clone();
        let answer = reference::bench::relocate(&restore, &mut image, machine, own, &mut registers);
        let known = match (named.settings(), bench::breach(&scene)) {
            (None, _) => (31, 0),
            (_, Some(place)) => (50, place),
            _ => named.answer(&scene, 0),
        };
        assert_eq!(refused(answer), known, "{scene:x?}");
        if known.0 != 50 {
            let mut registers = scene.stops[0].lent();
            assert_eq!(restore.relocate(base, machine, own, &mut registers), answer);
            assert!(*base == image);
        } else if let Some(way) = way {
            ways[way] += 1;
            late += u32::from(known.1 > 0);
        }
        numbers[known.0 as usize] += 1;
    }
    for number in [0, 10, 16, 17, 19, 20, 21, 25, 31, 33, 50] {
        assert!(numbers[number] > 30, "{number}: {numbers:?}");
    }
    for number in [12, 15, 18] {
        assert_eq!(numbers[number], 0, "{number} can't be given on the bench");
    }
    assert!(ways.iter().all(|count| *count > 200), "{ways:?}");
    assert!(late > 1_000, "{late}");
}

/// Whether every frame's address is that of a record, as a breach of order needs it.
fn find_all(scene: &Scene) -> bool {
    let own = keys(&scene.section);
    scene.stops.iter().all(|stop| own.contains(&stop.address))
}
