//! The move of a whole thread by the proved library and by the second implementation, in sections of
//! both versions: random lists, lists with faults in any frame, extents that share bytes, and lists at
//! their limits.
//!
//! Answers, whole images and the registers of all frames are compared, also where a list is refused. Where the
//! section is not damaged at random the generator knows them beforehand, and that is compared too. The random
//! lists follow from a seed. It is printed; `TRESKIBBEN_SEED` sets it.

mod common;

#[path = "common/calls.rs"]
mod calls;
#[path = "thread/limits.rs"]
mod limits;
#[path = "thread/registers.rs"]
mod registers;
#[path = "thread/shapes.rs"]
mod shapes;
#[path = "thread/worked.rs"]
mod worked;

use calls::{Call, Outcome};
use common::{count_random, nth_version, say};
use generator::frames::faults::{aim, other_machine};
use generator::frames::shuffle;
use generator::frames::thread::Thread;
use generator::{aimed, damage, section_in, Rng, Version};
use shapes::{POSITIONS, SHAPES};

/// Lists in a run, made in parts that each have a source of random numbers.
const PARTS: u64 = 1_300;
const LISTS_A_PART: u64 = 200;

/// The numbers of a frame, each of which must occur at several positions.
const OF_FRAME: [u64; 10] = [10, 12, 15, 16, 17, 18, 19, 20, 21, 26];

/// The other numbers that are no refusal of the section itself: acceptance, and what all frames share.
const OF_LIST: [u64; 5] = [0, 13, 14, 25, 33];

/// The numbers that a list of frames never gets.
const NEVER: [usize; 10] = [11, 22, 23, 24, 27, 28, 29, 30, 31, 32];

/// How often a number must occur at a sort of position at least.
const LEAST_AT: u64 = 80;

/// How often each number was the answer, 0 to 33, for each version that sections were made of; how often
/// each number of a frame was one at each sort of position; and how often each shape was seen.
const ANSWERS: usize = 34;
const NUMBERS: usize = 2 * ANSWERS;
const AT: usize = OF_FRAME.len() * POSITIONS.len();
type Counts = [u64; NUMBERS + AT + SHAPES.len()];

/// A random list, the bytes of its section, and what is known of it: number and place.
fn case(rng: &mut Rng) -> (Thread, Vec<u8>, Option<(u64, u64)>) {
    let mut thread = Thread::any(rng);
    if rng.one_in(16) {
        other_machine(&mut thread.scene);
    }
    let mut known = Some(thread.answer());
    // What all frames share; 33 is looked for before 13, 13 before 14, and the section's own before all.
    for number in [14, 13, 33] {
        if rng.one_in(24) && aim(rng, number, &mut thread.scene, 0).is_some() {
            known = Some((number, 0));
        }
    }
    let mut built = thread.scene.section.build();
    match rng.below(8) {
        0 => {
            let number = rng.pick(aimed::numbers(thread.scene.section.version));
            let place = aimed::aim(rng, number, &thread.scene.section, &mut built);
            known = place.map_or(known, |place| Some((number, place as u64)));
        }
        1 => {
            let version = rng.pick(&Version::ALL);
            let other = section_in(rng, version).encode();
            damage::damage(rng, &mut built, &other);
            known = None;
        }
        _ => {}
    }
    (thread, built.bytes, known)
}

/// Moves a random list, and compares all that is known of it.
fn run(rng: &mut Rng, counts: &mut Counts) {
    let (thread, section, known) = case(rng);
    let list = thread.list();
    let call = Call::with(&thread.scene, &section, &list[..], thread.registers());
    let outcome = call.compare();
    let version = nth_version(thread.scene.section.version);
    counts[ANSWERS * version + outcome.number as usize] += 1;
    let Some(known) = known else {
        return;
    };
    if (outcome.number, outcome.place) != known {
        call.fail(&format!("{outcome:?}, known beforehand {known:?}"));
    }
    if outcome.number == 0 {
        accepted(rng, &thread, &call, &outcome);
    }
    let (at, seen) = counts[NUMBERS..].split_at_mut(AT);
    if let Some(nth) = OF_FRAME.iter().position(|number| *number == known.0) {
        let at = &mut at[nth * POSITIONS.len()..];
        for (count, (_, is)) in at.iter_mut().zip(POSITIONS) {
            *count += u64::from(is(known.1 as usize, thread.order.len()));
        }
    }
    for (count, (_, shows)) in seen.iter_mut().zip(SHAPES) {
        *count += u64::from(shows(&thread, known));
    }
}

/// What holds of an accepted list: the sum of the pointers, the image and the registers are those worked out
/// beforehand, those of the frames moved one by one, and those of the list in another order.
fn accepted(rng: &mut Rng, thread: &Thread, call: &Call<&[u64]>, outcome: &Outcome) {
    let lent = outcome.image == thread.moved() && outcome.registers == thread.moved_registers();
    if outcome.count != thread.pointers() || !lent {
        call.fail(&format!("{outcome:?}, worked out otherwise beforehand"));
    }
    let mut single = Outcome {
        count: 0,
        image: call.image.to_vec(),
        registers: Vec::new(),
        ..outcome.clone()
    };
    for stop in thread.order.iter().copied() {
        let one = Call::of(&thread.scene, call.section, stop);
        let image = &single.image;
        let moved = Call { image, ..one }.by_library();
        single.count += moved.count;
        single.registers.extend(moved.registers);
        (single.number, single.image) = (moved.number, moved.image);
    }
    let mut other = thread.clone();
    shuffle(rng, &mut other.order);
    let list = other.list();
    let shuffled = Call::with(&other.scene, call.section, &list[..], other.registers()).compare();
    let as_before = shuffled.answer() == outcome.answer() && shuffled.image == outcome.image;
    let own = shuffled.registers == other.moved_registers();
    if single != *outcome || !as_before || !own {
        call.fail(&format!(
            "{outcome:?}, one by one {single:?}, in another order {shuffled:?}"
        ));
    }
}

#[test]
fn random_lists() {
    let counts = count_random("random threads", PARTS, LISTS_A_PART, run);
    let (numbers, rest) = counts.split_at(NUMBERS);
    let (at, seen) = rest.split_at(AT);
    for (version, numbers) in Version::ALL.into_iter().zip(numbers.chunks(ANSWERS)) {
        let (lists, of) = (numbers.iter().sum::<u64>(), version.number());
        say(&format!(
            "{lists} lists of version {of}, {} accepted",
            numbers[0]
        ));
        say(&format!("refused by 1 to 33: {:?}", &numbers[1..]));
        for number in NEVER {
            assert_eq!(numbers[number], 0, "{number} is no answer of a thread");
        }
        let due = [&OF_LIST, aimed::numbers(version), &OF_FRAME].concat();
        for number in due {
            let name = |_| format!("answers {number} of version {of}");
            common::assert_often(&[numbers[number as usize]], name);
        }
    }
    for (number, at) in OF_FRAME.iter().zip(at.chunks(POSITIONS.len())) {
        say(&format!(
            "  {number} at first, second, among, late, last: {at:?}"
        ));
    }
    say(&format!("shapes: {seen:?}"));
    for (nth, count) in at.iter().enumerate() {
        let (number, position) = (OF_FRAME[nth / POSITIONS.len()], nth % POSITIONS.len());
        let least = if (number, position) == (26, 0) {
            0
        } else {
            LEAST_AT
        };
        let name = POSITIONS[position].0;
        assert!(*count >= least, "{number} at {name}: only {count} times");
    }
    common::assert_often(seen, |nth| SHAPES[nth].0.to_string());
}
