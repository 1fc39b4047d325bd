//! Threads that are explained as a whole.

use crate::calls::Call;
use crate::common::{count_random, say};
use crate::thread_cases::case;
use crate::under::stores::Stored;
use crate::under::{by_edition, known_under, restore, Under};
use crate::{compare, content, new_content, room, row_of_rust, row_of_second, rows_known, store};
use crate::{Rows, ROW, SLOT};
use generator::frames::named::Named;
use generator::frames::thread::Thread;
use generator::frames::{Scene, Size, Table};
use generator::Rng;
use treskibben::Frames;

/// Lists in a run, made in parts that each have a source of random numbers.
const PARTS: u64 = 1_000;
const LISTS_A_PART: u64 = 60;

/// How often each reason must be told of a slot, and each number of a refusal.
const LEAST: u64 = 10_000;
const LEAST_REFUSED: u64 = 100;

/// The numbers of a thread that is explained.
const NUMBERS: usize = 34;
const DUE: [usize; 26] = [
    0, 1, 2, 3, 4, 5, 6, 7, 8, 9, 10, 12, 13, 14, 15, 16, 17, 18, 19, 20, 21, 24, 25, 26, 31, 33,
];

/// How often each number was the answer; how often each reason was told, 0 to 3; how many null pairs there
/// were, pointers of a frame after the first, and frames without pointers among others.
type Counts = [u64; NUMBERS + 7];

/// The rows by the second implementation: it judges the thread on a copy of all, and explains each frame of one
/// that would be moved.
fn by_second(call: &Call<Under<&[u64]>>) -> Rows {
    let (restore, machine, list) = (restore(call), call.machine, call.frames.frames);
    let (mut image, mut registers) = (call.image.to_vec(), call.registers.clone());
    let judged = restore.thread(&mut image, machine, list, &mut registers, None);
    judged.map_err(|refusal| (refusal.number, refusal.place))?;
    let (frames, _) = list.as_chunks::<2>();
    let (registers, _) = call.registers.as_chunks::<32>();
    let mut rows = Vec::new();
    for (position, (&[address, function], own)) in frames.iter().zip(registers).enumerate() {
        let frame = reference::Frame { address, function };
        let told = restore.explain_frame(call.image, machine, frame, own);
        let told = told.expect("a frame of an accepted thread");
        rows.extend(told.iter().flat_map(|own| row_of_second(position, own)));
    }
    Ok(rows)
}

/// The rows as Rust is told; nothing for a machine that is none or a store that is damaged.
fn by_rust(call: &Call<Under<&[u64]>>) -> Option<Rows> {
    let Under { stored, frames } = call.frames;
    let (edition, machine) = (stored.rust()?, call.machine()?);
    let (section, image, first, table) = (call.section, call.image, call.first, call.table());
    let (frames, registers) = (Frames::of_numbers(frames), &call.registers);
    let told = edition.explain_thread(section, image, first, table, machine, frames, registers);
    let rows = told.map(|told| told.iter().flat_map(row_of_rust).collect());
    Some(rows.map_err(|refusal| (refusal.number(), refusal.place())))
}

/// Explains a thread in all ways, with a list of so many numbers for C, and gives the rows and the number of C's
/// refusal.
fn explain(call: &Call<Under<&[u64]>>, room: impl FnOnce(usize) -> usize) -> (Rows, u64) {
    let (rows, rust) = (by_second(call), by_rust(call));
    if rust.as_ref().is_some_and(|rust| *rust != rows) {
        call.fail(&format!(
            "in Rust {rust:x?}, by the second implementation {rows:x?}"
        ));
    }
    let room = room(rows.as_ref().map_or(0, Vec::len));
    let Under { stored, frames } = call.frames;
    let number = compare(call, &rows, room, |list| {
        by_edition::explain_thread(stored, call, frames, list)
    });
    (rows, number)
}

/// What the rows say, the move does: the same refusal, as many pointers, and what each slot holds afterwards.
fn done(call: &Call<Under<&[u64]>>, rows: &Rows) {
    let outcome = call.by_library();
    let told = match rows {
        Ok(rows) => (0, 0, (rows.len() / ROW) as u64),
        Err((number, place)) => (*number, *place, 0),
    };
    if told != outcome.answer() {
        call.fail(&format!("{told:?} told, and the move {outcome:?}"));
    }
    let (registers, _) = outcome.registers.as_chunks::<32>();
    let slots = rows.iter().flatten().copied().collect::<Vec<u64>>();
    for row in slots.chunks(ROW) {
        for slot in row[2..].chunks(SLOT).filter(|slot| slot[0] != 0) {
            let registers = &registers[row[0] as usize];
            let after = content(call.first, &outcome.image, registers, slot);
            if after != new_content(slot) {
                call.fail(&format!("{slot:x?} told, and {after:x} left by the move"));
            }
        }
    }
}

/// Explains a random thread under a random edition, and compares all that is known of it.
fn run(rng: &mut Rng, counts: &mut Counts) {
    let (thread, section, known) = case(rng);
    let scene = &thread.scene;
    let stored = store(rng, scene);
    let list = thread.list();
    let frames = Under {
        stored: &stored,
        frames: &list[..],
    };
    let call = Call::with(scene, &section, frames, thread.registers());
    let (rows, number) = explain(&call, |needed| room(rng, needed));
    let answer = |most| thread.answer_under(most);
    let known = known_under(&stored, scene, known, answer);
    let expected = known.map(|known| match known {
        (0, _) => {
            let stops = thread.order.iter().enumerate();
            Ok(stops
                .flat_map(|(position, stop)| rows_known(scene, *stop, position))
                .collect())
        }
        refused => Err(refused),
    });
    if expected.as_ref().is_some_and(|expected| *expected != rows) {
        call.fail(&format!("{rows:x?}, known beforehand {expected:x?}"));
    }
    done(&call, &rows);
    counts[number as usize] += 1;
    if let Ok(rows) = &rows {
        count(rows, thread.order.len(), &mut counts[NUMBERS..]);
    }
}

/// Counts what the rows of so many frames show.
fn count(rows: &[u64], frames: usize, counts: &mut [u64]) {
    for row in rows.chunks(ROW) {
        for slot in row[2..].chunks(SLOT).filter(|slot| slot[0] != 0) {
            counts[slot[3] as usize] += 1;
        }
        counts[4] += u64::from(row[2] == 0);
        counts[5] += u64::from(row[0] > 0);
    }
    let told = |position: u64| rows.chunks(ROW).any(|row| row[0] == position);
    let without = (0..frames as u64).filter(|position| !told(*position));
    if !rows.is_empty() {
        counts[6] += without.count() as u64;
    }
}

#[test]
fn random_threads() {
    let counts = count_random("random threads explained", PARTS, LISTS_A_PART, run);
    let (numbers, others) = counts.split_at(NUMBERS);
    say(&format!("answers 0 to 33: {numbers:?}"));
    for (number, count) in numbers.iter().enumerate() {
        match DUE.contains(&number) {
            true => assert!(
                *count >= LEAST_REFUSED,
                "answers {number}: only {count} times"
            ),
            false => assert_eq!(*count, 0, "{number} is no answer"),
        }
    }
    let names = [
        "unlisted",
        "only base",
        "null base",
        "moved",
        "null pairs",
        "pointers of later frames",
        "frames without pointers",
    ];
    say(&format!("{names:?}: {others:?}"));
    assert_eq!(others[0], 0, "a slot of a pointer is listed");
    for (name, count) in names.iter().zip(others).skip(1).take(5) {
        assert!(*count >= LEAST, "{name}: only {count} times");
    }
    assert!(others[6] >= 1_000, "{}: {}", names[6], others[6]);
}

/// A store with an edition that allows all of a scene.
fn allowing(rng: &mut Rng, scene: &Scene) -> Stored {
    let own = generator::editions::Settings {
        largest_count: 256,
        machine: scene.machine,
        version_1: true,
        version_3: true,
    };
    let named = Named {
        greatest: 1,
        live: vec![(1, own)],
        edition: 1,
    };
    Stored::of(rng, &named)
}

/// Frames of 256 pointers each, for which Rust's first list is too short; and as many frames as a thread may
/// have, of few.
#[test]
fn long_threads() {
    let mut rng = Rng::new(9);
    let many = |pointers| Size {
        cells: pointers,
        registers: 0,
        pointers,
        wide: true,
    };
    for (frames, pointers) in [(1, 17), (5, 16), (5, 17), (5, 256), (4_096, 1)] {
        let table = Table::of(&mut rng, 20);
        let scene = Scene::of(&mut rng, table, &vec![many(pointers); frames]);
        let stored = allowing(&mut rng, &scene);
        let thread = Thread::of(scene);
        let (section, list) = (thread.scene.section.encode(), thread.list());
        let frames_under = Under {
            stored: &stored,
            frames: &list[..],
        };
        let call = Call::with(&thread.scene, &section, frames_under, thread.registers());
        let needed = ROW * pointers * frames;
        // The second implementation takes long for many frames.
        let rooms = [(needed, 0), (needed - 1, 24), (needed + 3, 0)];
        let rooms = &rooms[..if frames > 5 { 1 } else { 3 }];
        for (room, number) in rooms.iter().copied() {
            let (rows, told) = explain(&call, |_| room);
            assert_eq!(rows.map(|rows| rows.len()), Ok(needed));
            assert_eq!(told, number, "{frames} frames of {pointers} pointers");
        }
    }
}

/// A list of no frames has no rows; an odd one is refused before its rows are looked for.
#[test]
fn no_frames() {
    let mut rng = Rng::new(10);
    let table = Table::of(&mut rng, 3);
    let size = Size::few(&mut rng);
    let scene = Scene::of(&mut rng, table, &[size]);
    let (section, stored) = (scene.section.encode(), allowing(&mut rng, &scene));
    for (list, expected) in [(&[][..], Ok(vec![])), (&[1], Err((25, 0)))] {
        let frames = Under {
            stored: &stored,
            frames: list,
        };
        let call = Call::with(&scene, &section, frames, vec![]);
        for room in [0, 5] {
            assert_eq!(explain(&call, |_| room).0, expected);
        }
    }
}
