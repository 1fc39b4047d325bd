//! Frames that are explained as a whole.

use crate::calls::Call;
use crate::cases::{case, Known};
use crate::common::{assert_often, count_random, say};
use crate::under::{by_edition, known_under, of_second, restore, Under};
use crate::{compare, content, new_content, room, row_of_rust, row_of_second, rows_known, store};
use crate::{Rows, ROW, SLOT};
use generator::frames::{plain, Scene, Size, Table};
use generator::Rng;
use treskibben::{Frame, Slot};

/// Frames in a run, made in parts that each have a source of random numbers.
const PARTS: u64 = 1_000;
const FRAMES_A_PART: u64 = 150;

/// How often each reason must be told of a slot.
const LEAST: u64 = 10_000;

/// What is counted of slots: whether the slot is the base or derived, in memory or a register, and its reason,
/// 0 to 3.
const SLOTS: usize = 2 * 2 * 4;

/// The numbers of a frame that is explained.
const NUMBERS: usize = 34;
const DUE: [usize; 25] = [
    0, 1, 2, 3, 4, 5, 6, 7, 8, 9, 10, 12, 13, 14, 15, 16, 17, 18, 19, 20, 21, 24, 25, 31, 33,
];

/// What else is counted of frames and their pointers.
const OTHERS: [&str; 7] = [
    "null pairs",
    "pointers after the first of their pair",
    "rows one number too short",
    "no room at all for rows",
    "frames without pointers",
    "frames of 255 or 256 pointers",
    "pointers whose two slots are one",
];

type Counts = [u64; SLOTS + NUMBERS + OTHERS.len()];

/// The rows by the second implementation.
fn by_second(call: &Call<Under<Frame>>) -> Rows {
    let (machine, frame) = (call.machine, of_second(call.frames.frames));
    let told = restore(call).explain_frame(call.image, machine, frame, &call.registers);
    let rows = told.map(|told| told.iter().flat_map(|own| row_of_second(0, own)).collect());
    rows.map_err(|refusal| (refusal.number, refusal.place))
}

/// The rows as Rust is told; nothing for a machine that is none or a store that is damaged.
fn by_rust(call: &Call<Under<Frame>>) -> Option<Rows> {
    let Under { stored, frames } = call.frames;
    let (edition, machine) = (stored.rust()?, call.machine()?);
    let (section, image, first, table) = (call.section, call.image, call.first, call.table());
    let registers = &call.registers;
    let told = edition.explain_frame(section, image, first, table, machine, frames, registers);
    let rows = told.map(|told| told.iter().flat_map(row_of_rust).collect());
    Some(rows.map_err(|refusal| (refusal.number(), refusal.place())))
}

/// Explains a frame in all ways, with a list of so many numbers for C, and gives the rows and the number of C's
/// refusal.
pub fn explain(call: &Call<Under<Frame>>, room: impl FnOnce(usize) -> usize) -> (Rows, u64) {
    let (rows, rust) = (by_second(call), by_rust(call));
    if rust.as_ref().is_some_and(|rust| *rust != rows) {
        call.fail(&format!(
            "in Rust {rust:x?}, by the second implementation {rows:x?}"
        ));
    }
    let room = room(rows.as_ref().map_or(0, Vec::len));
    let Under { stored, frames } = call.frames;
    let number = compare(call, &rows, room, |list| {
        by_edition::explain_frame(stored, call, frames, list)
    });
    (rows, number)
}

/// What the rows say, the move does: the same refusal, as many pointers, and what each slot holds afterwards.
fn done(call: &Call<Under<Frame>>, rows: &Rows) {
    let outcome = call.by_library();
    let told = match rows {
        Ok(rows) => (0, 0, (rows.len() / ROW) as u64),
        Err((number, place)) => (*number, *place, 0),
    };
    if told != outcome.answer() {
        call.fail(&format!("{told:?} told, and the move {outcome:?}"));
    }
    let slots = rows.iter().flatten().copied().collect::<Vec<u64>>();
    for row in slots.chunks(ROW) {
        for slot in row[2..].chunks(SLOT).filter(|slot| slot[0] != 0) {
            let after = content(call.first, &outcome.image, &outcome.registers, slot);
            if after != new_content(slot) {
                call.fail(&format!("{slot:x?} told, and {after:x} left by the move"));
            }
        }
    }
}

/// A slot of a row is told as it is when it is asked for alone.
fn alone(rng: &mut Rng, call: &Call<Under<Frame>>, rows: &[u64]) {
    let row = rows.chunks(ROW).nth(rng.below(rows.len() / ROW + 1));
    let Some(slot) = row.map(|row| &row[2 + SLOT * rng.below(2)..][..SLOT]) else {
        return;
    };
    let asked = match slot[0] {
        0 => return,
        1 => Slot::Address(slot[1]),
        _ => Slot::Register(slot[1]),
    };
    let Under { stored, frames } = call.frames;
    let told = by_edition::explain(stored, call, frames, asked);
    if told != [slot[3], 0, 0, slot[4], slot[5], slot[6]] {
        call.fail(&format!("{slot:x?} told, and alone {told:x?}"));
    }
}

/// A random frame, mostly whole, the bytes of its section, and what is known of it.
fn frame(rng: &mut Rng) -> (Scene, Vec<u8>, Known) {
    let scene = match rng.below(4) {
        0 => Scene::wide(rng),
        _ => Scene::one(rng),
    };
    if rng.one_in(3) {
        return case(rng, scene);
    }
    let section = scene.section.encode();
    (scene, section, Some((0, 0)))
}

/// Explains a random frame under a random edition, and compares all that is known of it.
fn run(rng: &mut Rng, counts: &mut Counts) {
    let (scene, section, known) = frame(rng);
    let stored = store(rng, &scene);
    let stop = &scene.stops[0];
    let frames = Frame {
        address: stop.address,
        function: stop.named,
    };
    let frames = Under {
        stored: &stored,
        frames,
    };
    let call = Call::with(&scene, &section, frames, stop.lent());
    let mut given = 0;
    let (rows, number) = explain(&call, |needed| {
        given = room(rng, needed);
        given
    });
    let answer = |most| plain::refusal_under(&scene, 0, most);
    let known = known_under(&stored, &scene, known, answer);
    let expected = known.map(|known| match known {
        (0, _) => Ok(rows_known(&scene, 0, 0)),
        refused => Err(refused),
    });
    if expected.as_ref().is_some_and(|expected| *expected != rows) {
        call.fail(&format!("{rows:x?}, known beforehand {expected:x?}"));
    }
    done(&call, &rows);
    counts[SLOTS + number as usize] += 1;
    if let Ok(rows) = &rows {
        alone(rng, &call, rows);
        count(rows, counts);
        let others = &mut counts[SLOTS + NUMBERS..];
        others[2] += u64::from(given + 1 == rows.len());
        others[3] += u64::from(number == 24 && given == 0);
        others[4] += u64::from(rows.is_empty());
        others[5] += u64::from(rows.len() >= 255 * ROW);
    }
}

/// Counts what rows show.
fn count(rows: &[u64], counts: &mut Counts) {
    let mut before = None;
    for row in rows.chunks(ROW) {
        for (role, slot) in row[2..].chunks(SLOT).enumerate() {
            if let Some(kind) = slot[0].checked_sub(1) {
                counts[8 * role + 4 * kind as usize + slot[3] as usize] += 1;
            }
        }
        let others = &mut counts[SLOTS + NUMBERS..];
        others[0] += u64::from(row[2] == 0);
        others[1] += u64::from(before == Some(row[1]));
        others[6] += u64::from(row[2] != 0 && row[2..][..SLOT] == row[2 + SLOT..]);
        before = Some(row[1]);
    }
}

#[test]
fn random_frames() {
    let counts = count_random("random frames explained", PARTS, FRAMES_A_PART, run);
    let (slots, rest) = counts.split_at(SLOTS);
    let (numbers, others) = rest.split_at(NUMBERS);
    for (nth, counts) in slots.chunks(4).enumerate() {
        let role = ["base", "derived"][nth / 2];
        let name = format!("{role} in {}", ["memory", "a register"][nth % 2]);
        let [unlisted, only_base, null_base, moved] = counts else {
            panic!("four reasons");
        };
        say(&format!(
            "{name}: {only_base} only base, {null_base} null base, {moved} moved"
        ));
        assert_eq!(*unlisted, 0, "{name}: a slot of a pointer is listed");
        assert!(*null_base >= LEAST, "{name}: null base {null_base}");
        assert!(*moved >= LEAST, "{name}: moved {moved}");
        match role {
            "base" => assert!(*only_base >= LEAST, "{name}: only base {only_base}"),
            _ => assert_eq!(*only_base, 0, "{name}: a derived slot is no base only"),
        }
    }
    say(&format!("answers 0 to 33: {numbers:?}"));
    for (number, count) in numbers.iter().enumerate() {
        match DUE.contains(&number) {
            true => assert!(*count >= 200, "answers {number}: only {count} times"),
            false => assert_eq!(*count, 0, "{number} is no answer"),
        }
    }
    for number in [0, 17, 24, 31, 33] {
        assert_often(&[numbers[number]], |_| format!("answers {number}"));
    }
    say(&format!("{OTHERS:?}: {others:?}"));
    assert_often(others, |nth| OTHERS[nth].to_string());
    assert!(others[0] >= LEAST && others[1] >= LEAST, "{others:?}");
}

/// 256 pointers in as many slots, and lists just long enough and too short for them.
#[test]
fn as_many_pointers_as_a_frame_may_have() {
    let mut rng = Rng::new(8);
    for nth in 0..40 {
        let table = Table::of(&mut rng, 20);
        let size = Size {
            cells: 256,
            registers: 14,
            pointers: 256,
            wide: nth % 2 == 0,
        };
        let scene = Scene::of(&mut rng, table, &[size]);
        let section = scene.section.encode();
        let stored = loop {
            let stored = store(&mut rng, &scene);
            let own = stored.settings();
            if own.is_some_and(|own| crate::under::allows(&own, &scene) && own.largest_count == 256)
            {
                break stored;
            }
        };
        let stop = &scene.stops[0];
        let frames = Frame {
            address: stop.address,
            function: stop.named,
        };
        let frames = Under {
            stored: &stored,
            frames,
        };
        let call = Call::with(&scene, &section, frames, stop.lent());
        for (room, number) in [(4_096, 0), (4_095, 24), (4_080, 24), (5_000, 0), (0, 24)] {
            let (rows, told) = explain(&call, |_| room);
            assert_eq!(rows.map(|rows| rows.len()), Ok(4_096));
            assert_eq!(told, number, "{room}");
        }
    }
}
