//! Lists of moves of frames whose extents share no byte, each with registers of its own: in every order each
//! frame is answered as it is on the starting image, and image and registers come out as worked out from the
//! starting ones.

use crate::calls::{Call, Outcome};
use crate::common::{count_random, say};
use generator::frames::faults::{scatter_of, ALONE};
use generator::frames::{plain, shuffle, Scene};
use generator::Rng;

/// Lists in a run, in parts.
const PARTS: u64 = 200;
const LISTS_A_PART: u64 = 70;

/// Lists, moves, accepted moves, lists with a refused frame, frames that share a record, accepted moves that
/// change a register, and frames refused by 25.
type Counts = [u64; 7];

/// Whether no two frames have extents that share a byte.
fn apart(scene: &Scene, section: &[u8]) -> bool {
    let image = u128::from(scene.first)..=u128::from(scene.first) + scene.image.len() as u128;
    let mut extents: Vec<(u128, u128)> = scene
        .stops
        .iter()
        .filter_map(|stop| {
            let frame = reference::Frame {
                address: stop.address,
                function: stop.named,
            };
            reference::extent(section, scene.machine, frame, &stop.lent())
        })
        .filter(|(start, end)| image.contains(start) && image.contains(end) && start < end)
        .collect();
    extents.sort();
    extents.windows(2).all(|two| two[0].1 <= two[1].0)
}

/// Moves the frames in this order, each on the image that the one before has left. The registers of each
/// come out as they do on the starting image.
fn run(
    scene: &Scene,
    section: &[u8],
    order: &[usize],
    plain: &[Outcome],
    same_place: bool,
) -> Vec<u8> {
    let mut image = scene.image.clone();
    for stop in order.iter().copied() {
        let call = Call {
            image: &image,
            ..Call::of(scene, section, stop)
        };
        let outcome = call.by_library();
        let expected = &plain[stop];
        let place = same_place || !(18..=21).contains(&outcome.number);
        if (outcome.number, outcome.count) != (expected.number, expected.count)
            || outcome.registers != expected.registers
            || place && outcome.place != expected.place
        {
            call.fail(&format!(
                "{outcome:?} in the order {order:?}, plainly {expected:?}"
            ));
        }
        image = outcome.image;
    }
    image
}

/// All orders of so many frames.
fn orders(count: usize) -> Vec<Vec<usize>> {
    let Some(last) = count.checked_sub(1) else {
        return vec![Vec::new()];
    };
    let shorter = orders(last).into_iter();
    let with = |order: Vec<usize>| {
        (0..=order.len()).map(move |at| {
            let mut order = order.clone();
            order.insert(at, last);
            order
        })
    };
    shorter.flat_map(with).collect()
}

/// All orders of a few frames, or some of many.
fn some_orders(rng: &mut Rng, count: usize) -> Vec<Vec<usize>> {
    let mut some = match count {
        0..=4 => orders(count),
        5 if rng.one_in(4) => orders(count),
        _ => vec![(0..count).collect(), (0..count).rev().collect()],
    };
    let mut random: Vec<usize> = (0..count).collect();
    shuffle(rng, &mut random);
    some.push(random);
    some
}

fn list(rng: &mut Rng, counts: &mut Counts) {
    let count = match rng.below(8) {
        0 => 6 + rng.below(10),
        _ => rng.below(6),
    };
    let mut scene = Scene::many(rng, count);
    scatter_of(rng, &mut scene, 4, &ALONE);
    let section = scene.section.encode();
    if !apart(&scene, &section) {
        return;
    }
    let plain: Vec<Outcome> = (0..count)
        .map(|stop| Call::of(&scene, &section, stop).compare())
        .collect();
    let accepted: Vec<usize> = (0..count).filter(|stop| plain[*stop].number == 0).collect();
    let expected = plain::moved(&scene, accepted.iter().copied());
    for stop in accepted.iter().copied() {
        let registers = plain::moved_registers(&scene, stop);
        assert!(plain[stop].registers == registers, "{stop} of {scene:x?}");
        counts[5] += u64::from(registers != scene.stops[stop].registers);
    }
    let other = scene.permuted(rng).encode();
    for (nth, order) in some_orders(rng, count).iter().enumerate() {
        let image = run(&scene, &section, order, &plain, true);
        assert!(image == expected, "{order:?} of {scene:x?}");
        if nth % 8 == 0 {
            let image = run(&scene, &other, order, &plain, false);
            assert!(
                image == expected,
                "{order:?} of {scene:x?} with pairs in another order"
            );
        }
        counts[1] += order.len() as u64;
        counts[2] += accepted.len() as u64;
    }
    counts[0] += 1;
    counts[3] += u64::from(accepted.len() < count);
    counts[6] += plain.iter().filter(|own| own.number == 25).count() as u64;
    let shared = |two: &[generator::frames::Stop]| two[0].record == two[1].record;
    counts[4] += scene.stops.windows(2).filter(|two| shared(two)).count() as u64;
}

#[test]
fn random_lists() {
    let counts = count_random("lists of moves", PARTS, LISTS_A_PART, list);
    say(&format!(
        "lists, moves, accepted moves, lists with a refusal, frames of one record, changed registers, 25: {counts:?}"
    ));
    crate::common::assert_often(&counts, |nth| format!("count {nth} of lists"));
}

/// All orders of five frames, whatever the seed.
#[test]
fn every_order_of_five_frames() {
    assert_eq!(orders(5).len(), 120);
    let mut rng = Rng::new(5);
    for _ in 0..20 {
        let scene = Scene::many(&mut rng, 5);
        let section = scene.section.encode();
        let plain: Vec<Outcome> = (0..5)
            .map(|stop| Call::of(&scene, &section, stop).compare())
            .collect();
        let expected = plain::moved(&scene, 0..5);
        for order in orders(5) {
            assert!(
                run(&scene, &section, &order, &plain, true) == expected,
                "{order:?} of {scene:x?}"
            );
        }
    }
}
